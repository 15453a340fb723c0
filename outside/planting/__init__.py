"""Plants bugs in a proved code base, one at a time."""
