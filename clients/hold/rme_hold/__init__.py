"""rme-hold: runs a command while a worker of rme is inside a lock."""
