"""What the tests from outside and the benchmarks share: running the programs, always with a bound on time."""
