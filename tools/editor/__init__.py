"""Tests of lw in colours: the table of words, and the grammar for editors that is made of it."""
