"""A server for gdb: a run that can be replayed forwards and backwards, from its report or from the event log."""
