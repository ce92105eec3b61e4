"""The tests of the package, the commands and the editors' files, which tools/check-python runs."""
