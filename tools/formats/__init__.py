"""The formats of both sides, written plainly: for tests, benchmarks and examples."""
