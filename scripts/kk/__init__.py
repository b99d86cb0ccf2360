"""What the scripts share: reading a printed table, telling and drawing it, the refusals' meanings, orders, traces, running the program."""
