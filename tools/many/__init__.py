"""The parts of tools/run_all.py: which files are run, who answers each, the table, and what it is compared with."""
