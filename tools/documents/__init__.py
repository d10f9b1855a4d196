"""Tools for authors of documents and definitions: what is generated from them, and what is counted."""
