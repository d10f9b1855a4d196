"""Fences of x86 tests: the smallest sufficient sets, places for further ones, and exchanges that could be plain stores."""
