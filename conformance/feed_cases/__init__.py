"""Cases of the calls on feeds, as crates/feed_cases has them, answered by the second reading."""
