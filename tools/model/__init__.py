"""The rules in Python, from which the vectors are made."""
