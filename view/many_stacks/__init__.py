"""Many stacks through one graph: one run for each line of a list, and one table of all runs."""
