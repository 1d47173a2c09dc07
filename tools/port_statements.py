#!/usr/bin/env python3
"""Lays the statements of two trees side by side: every definition, theorem and lemma of specs/ and proofs/ by its crate and name.

usage: tools/port_statements.py OLD NEW

OLD is LANDED (docs/PORT.md) after port.py and tools/port_names.py, NEW a tree of today. A name that moved to another file of its crate counts
as the same. What a function's own proof files declare (Proof, Answers, Invariants) is left out. Prints what is gone, changed and new.
"""
import os
import re
import sys

import port_names


def statements(root):
    found = {}
    for path in port_names.files(root, ".antt"):
        inside = os.path.relpath(path, root)
        text = port_names.code(open(path, encoding="utf-8").read())
        if "/proofs/" in inside and port_names.is_walk(path, text):
            continue
        lines = text.split("\n")
        for i, line in enumerate(lines):
            m = re.match(r"^( *)(?:pub |abbrev |unfoldable )*([^\s(){}.;,@\"«»]+)((?: \{[^{}]*\}| \([^()]*\))*) :\s(.*)$", line)
            if not m or m[2] in ("use", "mod", "module", "record", "data"):
                continue
            said = m[4]
            for more in lines[i + 1 :]:
                if not more.strip() or len(more) - len(more.lstrip()) <= len(m[1]) or re.match(r"^ *(unfolding|where)\b", more):
                    break
                said += " " + more.strip()
            found.setdefault((inside.split("/")[1], m[2]), []).append(" ".join(f"{m[3]} : {said}".split()))
    return found


def main(argv):
    old, new = (statements(root) for root in argv)
    changed = 0
    for key in sorted(old):
        a, b = sorted(old[key]), sorted(new.get(key, []))
        if a == b:
            continue
        changed += 1
        print("gone:" if not b else "differs:", *key)
        for text in a:
            if text not in b:
                print("    -", text)
        for text in b:
            if text not in a:
                print("    +", text)
    print("new:", ", ".join(" ".join(key) for key in sorted(new) if key not in old))
    print(f"{len(old)} names, {changed} differ")


if __name__ == "__main__":
    sys.dont_write_bytecode = True
    main(sys.argv[1:])
