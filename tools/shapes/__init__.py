"""Shapes: tests that are made from cycles of edges, their names, all shapes of a size, and quizzes of them."""
