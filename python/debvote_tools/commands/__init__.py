"""The commands of debvote-election, each in a module of its name, and its command line."""
