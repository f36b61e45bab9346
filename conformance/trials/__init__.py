"""Random cases, most of them odd, and what is needed to run, compare and shrink them."""
