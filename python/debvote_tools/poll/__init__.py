"""A poll as values: sealed, questions, what a call announces, plain names, marks and codes."""
