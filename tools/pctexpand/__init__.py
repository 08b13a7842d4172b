"""Shorter scripts, with copies of threads, constants, arrays and choices, and the plain scripts that they stand for."""
