#!/usr/bin/env python3
"""array.py NAME FILE: prints the line of an array that has the numbers of a file, at most 4096."""
import sys

name, file = sys.argv[1:]
numbers = [int(word) for word in open(file).read().split()]
if not 1 <= len(numbers) <= 4096:
    sys.exit(f"an array has 1 to 4096 cells, and {file} has {len(numbers)} numbers")
print("array", name, len(numbers), *numbers)
