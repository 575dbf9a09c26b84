"""What gateway.py and page.py are made of, and what package.py and these have run."""
