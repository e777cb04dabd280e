"""What `test_examples.py` looks at: blocks and command lines of the pages, their tables, the files of `examples`, and links."""
