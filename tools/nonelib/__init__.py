"""What `tools/why-none` is made of: questions to the program, and what is said of the answers."""
