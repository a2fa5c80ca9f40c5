"""Faults that are planted, to see that the driver reports them: a module for each kind of tests."""
