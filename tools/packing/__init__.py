"""The wheel and the package for Debian: what they carry, and how each is written."""
