"""Runs whose allocations are refused or counted."""
