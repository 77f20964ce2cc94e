"""A page on this computer from which the secretary runs `debvote-election`: `debvote-office`."""
