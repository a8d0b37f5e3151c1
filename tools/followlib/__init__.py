"""What `tools/follow` is made of: plans as one means them, and questions along a way."""
