"""The checks of the test command besides those of `rt ci`."""
import sys

# (`python3 -m unittest` imports this first. The other commands say so themselves.)
sys.dont_write_bytecode = True
