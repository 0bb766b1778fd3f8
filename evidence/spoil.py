#!/usr/bin/env python3
"""Spoils an input, for `rt try --cases`: writes it with each byte cut off, and with each bit of its first 64 bytes flipped.

    python3 evidence/spoil.py INPUT FOLDER [STEP]

FOLDER is made, and gets a file for each case. With STEP only each STEP-th length is written.
"""
import os
import sys


def main(path, folder, step="1"):
    with open(path, "rb") as f:
        data = f.read()
    os.makedirs(folder, exist_ok=True)
    name = os.path.basename(path)
    cases = {f"{name}.cut{n}": data[:n] for n in range(0, len(data), int(step))}
    for i in range(min(64, len(data))):
        for bit in range(8):
            cases[f"{name}.bit{i}_{bit}"] = data[:i] + bytes([data[i] ^ (1 << bit)]) + data[i + 1:]
    for case, spoilt in cases.items():
        with open(os.path.join(folder, case), "wb") as f:
            f.write(spoilt)
    print(len(cases), "cases")


if len(sys.argv) not in (3, 4):
    sys.exit(__doc__)
main(*sys.argv[1:])
