"""Cases of the top call over devices in memory, as crates/gateway_cases has them, run by the second reading."""
