"""What pct-try is made of: the runner's lines, the search, places and names, and what is told of a failing run."""
