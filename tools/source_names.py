#!/usr/bin/env python3
"""Gives the parts of goal and step names in proofs/F/ the spelling of the source: `if-is-late` becomes `if-is_late`.

usage: tools/source_names.py     at the top of the repository, once, after tools/respell.py"""

import glob
import re

NAME = re.compile(r"[A-Za-z_·+][\w·+'-]*")
WORDS = ["in_ok", "in_err", "in_default", "invariant_of", "overflow_add", "overflow_sub", "overflow_mul", "overflow_shl",
         "overflow_shr", "overflow_cast", "overflow_step", "nonzero_div", "nonzero_rem", "slice_bounds", "offset_bounds"]


def main():
    source = set()
    for p in glob.glob("crates/*/src/**/*.rt", recursive=True):
        source |= set(re.findall(r"\b[A-Za-z]\w*_\w+\b", open(p, encoding="utf-8").read()))
    source |= {"copy_from_slice", "split_at", "split_once", "split_whitespace", "trailing_ones", "count_ones", "into_iter",
               "as_bytes", "as_str", "to_be_bytes", "from_be_bytes", "is_some", "is_none", "is_empty", "checked_sub", "type_inv", "front_len"}
    dashed = sorted(((s.replace("_", "-"), s) for s in source | set(WORDS)), key=lambda x: -len(x[0]))
    changed = 0
    for p in sorted(glob.glob("crates/*/proofs/*/**/*.antt", recursive=True)):
        text = open(p, encoding="utf-8").read()
        imported = set()
        for m in re.finditer(r"^use (\S+?)\.\{([^}]*)\}", text, re.M):
            if not m[1].endswith((".Goals", ".Given")):
                imported |= set(re.split(r"[,\s]+", m[2]))

        def turned(m):
            name = m[0]
            if "-" not in name or name in imported:
                return name
            for old, new in dashed:
                name = re.sub(r"(?<![A-Za-z0-9_])" + re.escape(old) + r"(?![A-Za-z0-9_])", new, name)
            return name

        lines = []
        for line in text.split("\n"):
            lines.append(line if line.lstrip().startswith("--") or (line.startswith("use ") and ".Goals" not in line) else NAME.sub(turned, line))
        new = "\n".join(lines)
        if new != text:
            open(p, "w", encoding="utf-8").write(new)
            changed += 1
    print(f"{changed} files")


if __name__ == "__main__":
    main()
