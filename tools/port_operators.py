#!/usr/bin/env python3
"""Takes the library's operators (`◌+◌` ..) from Rattle.std.specs.Prelude where a file takes them from a module of the repository: rt ci refuses the other way.

usage: tools/port_operators.py FOLDER [CRATE..]

Run after port.py and port_names.py. `if◌then◌else◌` of definition/specs/Basics.antt, which had the library's clauses, is taken out by it too.
"""
import os, re, subprocess, sys
# the kit's folder, from `rt doc`
KIT = os.path.dirname(subprocess.run(["rt", "doc"], stdout=subprocess.PIPE, text=True, check=True).stdout.strip())
PRELUDE = f"{KIT}/rattle/std/specs/Prelude.antt"
STD = "Rattle.std.specs.Prelude"
SYMBOLS = {w for w in re.findall(r"[^\s{},]+", open(PRELUDE, encoding="utf-8").read()) if "◌" in w}

def turn(text, own, head, tail, inner=False):
    use = re.compile(r"(?m)^(?P<lead>[ \t]*(?:(?:pub|unfoldable)[ ]+)*)" + head + r"use (?P<path>[^\s{;]+)\.\{(?P<items>[^}]*)\}" + tail + r"\n")
    need = {}
    def one(m):
        of = re.match(r"Rattle\.(\w+)\.", m["path"])
        if not of or of[1] not in own:
            return m[0]
        items = [i.strip() for i in m["items"].split(",")]
        moved = [i for i in items if i in SYMBOLS]
        if not moved:
            return m[0]
        need.setdefault(m["lead"], []).extend(moved)
        rest = [i for i in items if i not in SYMBOLS and i]
        return f"{m['lead']}{head}use {m['path']}.{{{', '.join(rest)}}}{tail.replace(chr(92), '')}\n" if rest else f"\0{m['lead']}\0"
    new = use.sub(one, text)
    for lead, moved in need.items():
        line = re.search(r"(?m)^" + lead + head + r"use " + re.escape(STD) + r"\.\{([^}]*)\}" + tail, new)
        if line:
            have = [i.strip() for i in line[1].split(",")]
            add = [i for i in dict.fromkeys(moved) if i not in have]
            if add:
                new = new[: line.start(1)] + ", ".join(have + add) + new[line.end(1) :]
            new = new.replace(f"\0{lead}\0", "")
        else:
            fresh = f"{lead}{head}use {STD}.{{{', '.join(dict.fromkeys(moved))}}}{tail.replace(chr(92), '')}\n"
            new = new.replace(f"\0{lead}\0", "")
            first = re.search(r"(?m)^" + lead + head + r"use ", new)
            at = first.start() if first else None
            if at is None:
                # where the only import was
                at = use.search(text).start()
            new = new[:at] + fresh + new[at:]
    return new

def main(root, crates):
    own = set(os.listdir(f"{root}/crates"))
    n = 0
    for crate in crates or sorted(own):
        for part in ("src", "specs", "proofs"):
            for at, ds, names in os.walk(f"{root}/crates/{crate}/{part}"):
                for name in names:
                    p = f"{at}/{name}"
                    t = open(p, encoding="utf-8").read()
                    if name.endswith(".antt"): u = turn(t, own, "", "")
                    elif name.endswith(".rt"): u = turn(t, own, "ghost ", ";")
                    else: continue
                    if u != t:
                        n += 1
                        open(p, "w", encoding="utf-8").write(u)
    basics = f"{root}/crates/definition/specs/Basics.antt"
    t = open(basics, encoding="utf-8").read()
    u = re.sub(r"infixr 0 if◌then◌else◌\nabbrev pub if◌then◌else◌ [^\n]*\nif true [^\n]*\nif false [^\n]*\n\n", "", t)
    if u != t and (not crates or "definition" in crates):
        open(basics, "w", encoding="utf-8").write(u)
    print(f"{n} files")
main(sys.argv[1], sys.argv[2:])
