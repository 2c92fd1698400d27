"""Programs beside machines in Python, which know nothing of them."""
