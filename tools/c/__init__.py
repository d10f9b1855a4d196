"""Programs in C, C++ and Rust as tests of lw: what tools/from_c.py consists of."""
