"""The book of an election: its tables, its acts, and the queries on them."""
