"""Tests in the form of herd: read into tests of lw, and written from them. Nothing is claimed of herd beyond what is known of that form."""
