"""The lab of docs/LAB.md for a class: its tests with neutral names, its sheets, and slides."""
