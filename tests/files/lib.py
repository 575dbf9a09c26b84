"""The library that the folders share, for a script of this one that is called by its path."""
import pathlib

__path__ = [str(pathlib.Path(__file__).resolve().parents[1] / "lib")]
