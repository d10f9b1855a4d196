"""The parts of tools/on_machine.py: a test as machine code, its check, the harness that runs it, and what is printed."""
