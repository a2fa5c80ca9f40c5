"""The parts of the driver: what it runs, how it counts, and how it meets the program."""
