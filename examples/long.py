#!/usr/bin/env python3
"""Writes the longest script that is read to its end, and one that is longer by a line."""
for words, lines, status in (("1048576 lines are read", 1048576, 0), ("and no more", 1048577, 8)):
    print(f"== {words}")
    print("> volume p /v/a 64\nok")
    print("> #\n" * (lines - 1), end="")
    if status:
        print(f"= {status}")
