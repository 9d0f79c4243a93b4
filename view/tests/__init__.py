"""Tests of the page of a run and of runs over many stacks, over outputs of the built program."""
