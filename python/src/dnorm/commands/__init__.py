"""The commands of `dnorm-files`, which check, list and compare many files."""
