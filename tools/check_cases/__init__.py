"""The answers of the rows of crates/cases, computed without the library."""
