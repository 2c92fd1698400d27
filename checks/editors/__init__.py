"""Editors as clients of the server."""
