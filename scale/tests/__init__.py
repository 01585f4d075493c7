"""Tests of `on_dask`: `python3 -m unittest discover -s scale -t scale` runs them; see README.md."""
import os
import sys

sys.path.insert(0, os.path.dirname(os.path.dirname(os.path.abspath(__file__))))
