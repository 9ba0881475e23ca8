"""Trials of `tools/keep`, for `bench/keep` and the tests of the tool."""
