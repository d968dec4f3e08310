"""Tests of the package: `python3 -m unittest` in the folder `python`, or .ci/python-tests. What is due comes from .ci/plain_planner.py, which shares nothing
with the library, or stands in the test."""
