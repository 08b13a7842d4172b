"""A plain model of pct, written from the description of the language and the files and not from the crates: a second
opinion. tests/model.py is its command line, and the tools take from it what a trace does not have."""
