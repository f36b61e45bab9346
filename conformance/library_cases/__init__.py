"""Cases of the libraries' calls, as crates/library_cases has them, answered by the second reading."""
