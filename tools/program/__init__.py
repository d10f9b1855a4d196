"""Builds the program, if there is none of the present sources."""
