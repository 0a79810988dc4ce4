"""The parts of a release, for tools/release."""
