"""A search for the final states of a test, written for speed. Nothing here is proved; what it finds is replayed by the program."""
