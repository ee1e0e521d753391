#!/usr/bin/env python3
"""Prints a page with 513 customers."""
print("H,101,97")
for number in range(1, 514):
    print(f"C,{number},Alder,50,0,0,60,0,0,5,0")
