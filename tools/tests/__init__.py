"""Unit tests of the package: `python3 -m unittest discover -s tools -t tools` runs them."""
