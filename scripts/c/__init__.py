"""The tests of scripts/test_c.py by subject, and the C sources that they compile."""
