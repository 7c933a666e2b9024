#!/usr/bin/env python3
"""Renames a crate: its folder, its line and its mentions in crates.txt, and the paths to it in .rt and .antt files and must-fail edits.

usage: python3 tools/rename_crate.py OLD NEW     at the top of the repository
"""
import glob
import os
import re
import sys

old, new = sys.argv[1:]
os.rename(f"crates/{old}", f"crates/{new}")
for path in [p for e in ("rt", "antt", "edit") for p in glob.glob(f"crates/**/*.{e}", recursive=True)]:
    with open(path, encoding="utf-8") as f:
        text = f.read()
    turned = re.sub(rf"\bRattle\.{old}\.", f"Rattle.{new}.", text)
    turned = re.sub(rf"(?<![\w.:-]){old}::", f"{new}::", turned)
    turned = re.sub(rf"(?m)^use {old};", f"use {new};", turned)
    if turned != text:
        with open(path, "w", encoding="utf-8") as f:
            f.write(turned)
with open("crates.txt", encoding="utf-8") as f:
    text = f.read()
with open("crates.txt", "w", encoding="utf-8") as f:
    f.write(re.sub(rf"(?m)(?<![\w-]){old}(?![\w-])", new, text))
