"""The command line: options, what is told and asked, and faults."""
