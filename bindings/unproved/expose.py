#!/usr/bin/env python3
"""expose.py IN.ll OUT.ll: makes each call of yorwethul.h a function of the module that can be seen from outside, under its plain
name, and `main` one that can't."""

import re
import sys
from pathlib import Path

HEADER = Path(__file__).resolve().parent.parent / "c/yorwethul.h"
CRATE = "yorwethul_c"

text = Path(sys.argv[1]).read_text()
for call in re.findall(r"^uint32_t (yorwethul_\w+)\(", HEADER.read_text(), re.M):
    inside = f'@"{CRATE}::{call}"'
    text = text.replace(f"define internal noundef i32 {inside}", f"define noundef i32 @{call}").replace(inside, f"@{call}")
    if f"define noundef i32 @{call}(" not in text:
        sys.exit(f"{call} is not in the module")
# what main alone reaches goes with it
Path(sys.argv[2]).write_text(text.replace("define i32 @main(", "define internal i32 @unused_main("))
