"""The tests of the package, by unittest: `python3 -m tests` in the folder python/."""
