"""What several programs of tests share. Each is imported by its whole name, as `from tests.support import parts`."""
