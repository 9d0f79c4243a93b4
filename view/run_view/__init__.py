"""One self-contained page for what a run of nd_replay left under a prefix."""
