"""Where these files lie, and the repository."""
import pathlib

LIB = pathlib.Path(__file__).resolve().parent
ROOT = LIB.parent.parent
