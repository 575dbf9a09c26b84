"""What the scripts of the other folders import: each of these finds it by its lib.py."""
