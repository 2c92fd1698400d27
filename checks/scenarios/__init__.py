"""Scenarios: read, run and compared."""
