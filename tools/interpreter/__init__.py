"""The plain interpreter of litmus tests, a file for each subject; tools/plain.py is its command, and exports all its names."""
