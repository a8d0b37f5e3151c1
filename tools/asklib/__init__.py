"""What `tools/follow` and `tools/why-none` share: a file that can be changed, and questions to the program."""
