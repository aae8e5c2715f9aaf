"""The commands, a module for each: `add_words` says which words it takes, `run` does it and returns a status."""
