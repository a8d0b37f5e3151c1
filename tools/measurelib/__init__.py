"""What `tools/measure` measures: calls of the program, the machine, the sizes of crates, and commands it watches."""
