"""The parts of tools/from-pddl."""
