#!/usr/bin/env python3
"""Prints a page with one customer and 513 cost lines."""
print("H,101,97")
print("C,1,Alder,50,0,0,60,0,0,5,0")
for number in range(1, 514):
    print(f"E,{number},C,100")
