"""A module for each command of tools/bin, with its words, its help and its `main`."""
