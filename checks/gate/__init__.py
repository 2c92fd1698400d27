"""The gate, and what looks at the repository."""
