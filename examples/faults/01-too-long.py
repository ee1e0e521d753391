#!/usr/bin/env python3
"""Prints a page of 65,537 bytes."""
header = "H,101,97\n"
line = "T,1,2,5\n"
lines = (65_537 - len(header)) // len(line)
print(header, line * lines, sep="", end="")
