"""A service over the client library: programs hand in processes, workers do their work, and a window shows how they stand. See docs/OPERATING.md."""
