"""The draft of a poll, the members, the call, the web box, and what a secret vote needs."""
