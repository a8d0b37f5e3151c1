"""The parts of tools/install."""
