"""Random scripts by seed: many that mean something, and many hostile ones."""
