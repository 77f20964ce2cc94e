"""The letters that go out: which are due, their texts, files and sending."""
