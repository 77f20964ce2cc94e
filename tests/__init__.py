"""The tests. They are a package, so that no module of the system takes the place of one of theirs."""
