"""The tools: a module for each, whose PAGE, `add_words` and `run` the module `cli` takes."""
