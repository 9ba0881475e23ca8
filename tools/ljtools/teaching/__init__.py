"""The parts of `tools/class`."""
