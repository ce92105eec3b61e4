"""Sessions made from seeds, for comparing the program with the reference: see `tools/compare-reference`."""
