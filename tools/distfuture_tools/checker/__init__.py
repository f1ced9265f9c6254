"""A checker of the files that the program writes, by its documents alone."""
