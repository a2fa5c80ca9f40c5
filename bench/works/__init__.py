"""The kinds of work, a module each: the lines of a script for about so many operations in a copy,
from a seeded source of numbers."""
