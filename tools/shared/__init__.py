"""The common parts of several commands of tools/: files and faults, and lists of states."""
