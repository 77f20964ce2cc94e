"""Languages, templates, times, and ballots in words."""
