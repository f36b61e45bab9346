"""What the gateway's answers mean, told over the second reading of its rules."""
