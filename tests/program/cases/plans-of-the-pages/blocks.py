"""Checks that each `toml` block of the pages is a part of a plan in the folder of examples, line for line.

Usage: blocks.py EXAMPLES PAGE..
"""
import re
import sys
from pathlib import Path

plans = ["\n" + it.read_text() for it in sorted(Path(sys.argv[1]).glob("*.toml"))]
for page in sys.argv[2:]:
    for block in re.findall(r"(?ms)^```toml\n(.*?)^```$", Path(page).read_text()):
        if not any("\n" + block in plan for plan in plans):
            print(f"{Path(page).name} has a plan that is in no example:\n{block}")
