"""What the VM costs: its typed calls beside the original's and beside its own calls, long scripts, and calls from Python. tools/bench runs it."""
