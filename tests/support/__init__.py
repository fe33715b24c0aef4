"""Modules that the tests of processes share."""
