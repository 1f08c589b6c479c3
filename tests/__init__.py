"""Tests in Python of what is built. `python3 -m unittest discover tests`, at the top, runs them all; where one file is
named, as in `python3 -m unittest tests/test_parts.py`, this lets it find tests/support and tests/oracle."""
import sys
from pathlib import Path

FOLDER = str(Path(__file__).resolve().parent)
if FOLDER not in sys.path:
    sys.path.insert(0, FOLDER)
