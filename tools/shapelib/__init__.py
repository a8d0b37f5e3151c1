"""What the scripts know of the repository's own shape: its crates, its Rattle files and its documents."""
