#!/usr/bin/env python3
"""Spells this repository's own definitions and lemmas as today's Rattle does: words in snake case, joined by `_`.

usage: tools/port_names.py [--check] [FOLDER]

Run once, right after the kit's port.py, on the tree that it left. It turns
  crates/*/specs and crates/*/proofs    every name with a dash or an inner capital that is not imported from the kit's libraries
                                        and not a label that Rattle makes (those stand in a function's own Proof.antt)
  crates/*/src                          the same names, in clauses and `ghost use` items alone
A type keeps its capital: `Wraps-at` becomes `Wraps_at`. Functions of src/, strings, inputs and outputs stay.
Lines that begin 'meets:' show names that fall together in a file; with --check nothing is written.
"""
import os
import re
import sys

NAME = re.compile(r'[^\s(){}.;,@"«»]+')
QUIET = re.compile(r'"(?:[^"\\\n]|\\.)*"|(?<![^\s(){}.;,@"«»])--[^\n]*')
KIT = re.compile(r"(?!Rattle\.)|Rattle\.(?:std|std_\w+|core|io|libc|os|check)\b")
USE = re.compile(r"\buse ([^\s;{]+)\.\{([^}]*)\}")
# what stands before a dot where a name of the kit's follows
OF_KIT = re.compile(r"(?<![^\s(){};,])(?:lib|borrow|native|mathlib|Prim|denote|logic|Rattle\.std)\.(?:[^\s(){};,@]+\.)?$")
# names that would fall together with another one in a file: the new spelling, chosen by hand
CHOSEN = {"oneMore": "one_more_if", "isOpen": "is_open_run", "c-type": "c_type"}
CHOSEN |= {"or-else": "or_else_lem", "fixed-block": "fixed_block_lem", "no-part": "no_part_lem"}
# lemmas that port.py gave the spelling that a definition gets here
LEMMAS = {
    "cutting_proof/specs/bits/Holding.antt": "bit_in",
    "token_stream/proofs/write/component/Going.antt": "open_after",
}


def odd(name):
    inner = re.search(r"[a-z0-9'][A-Z]", name) and name[0].islower()
    dash = "-" in name and len(name) > 2 and re.search(r"[A-Za-z]", name)
    return bool(inner or dash) and not name.startswith(("#", "+", "-"))


def snake(name):
    if name in CHOSEN:
        return CHOSEN[name]
    parts = []
    for part in name.replace("getD", "get_or").split("-"):
        if part[:1].isupper():
            parts.append(part)
        else:
            parts.append(re.sub(r"(?<=[a-z0-9'])[A-Z]+", lambda m: "_" + m[0].lower(), part))
    return "_".join(p for p in parts if p) if not name.startswith("-") else name


def files(root, ending):
    for folder, dirs, names in os.walk(os.path.join(root, "crates")):
        dirs[:] = sorted(d for d in dirs if d not in ("out", "data", "must-fail"))
        for n in sorted(names):
            if n.endswith(ending):
                yield os.path.join(folder, n)


def quiet(text, f):
    """f over the text between strings and comments."""
    out, at = [], 0
    for m in QUIET.finditer(text):
        out += [f(text[at : m.start()]), m[0]]
        at = m.end()
    return "".join(out + [f(text[at:])])


def code(text):
    return QUIET.sub(lambda m: '""' if m[0][0] == '"' else "", text)


def imports(text):
    """What a file imports: names from the kit's libraries, and names from the repository's own modules."""
    kit, own = set(), set()
    for m in USE.finditer(text):
        for item in m[2].split(","):
            words = item.split()
            if words:
                (kit if KIT.match(m[1]) else own).update(w for w in words if w != "as")
    return kit, own


def is_walk(path, text):
    return os.path.basename(path) in ("Proof.antt", "Answers.antt", "Invariants.antt") and re.search(r"\.(Tie|Goals|Given|Statement)\b", text)


def main(argv):
    check = "--check" in argv
    rest = [a for a in argv if a != "--check"]
    root = rest[0] if rest else "."
    texts = {p: open(p, encoding="utf-8").read() for p in list(files(root, ".antt")) + list(files(root, ".rt"))}
    originals = dict(texts)
    for p in texts:
        for end, word in LEMMAS.items():
            if p.endswith(end):
                texts[p] = quiet(texts[p], lambda part: NAME.sub(lambda m: m[0] + "_lem" if m[0] == word else m[0], part))
    functions = set()
    for p, t in texts.items():
        if p.endswith(".rt"):
            functions |= set(re.findall(r"\bfn (\w+)", t))
    laws = {p for p, t in texts.items() if p.endswith(".antt") and not is_walk(p, code(t))}
    table, kits = {}, set()
    for p in laws:
        t = code(texts[p])
        kit, own = imports(t)
        kits |= kit
        for m in NAME.finditer(t):
            w = m[0]
            if odd(w) and w not in kit:
                table[w] = snake(w)
    helpers = {}
    for p, t in texts.items():
        if p.endswith(".antt") and p not in laws:
            t = code(t)
            kit, own = imports(t)
            for w in own:
                if odd(w):
                    table[w] = snake(w)
            helpers[p] = {m[1] for m in re.finditer(r"(?m)^(?:pub |abbrev |unfoldable )*([^\s(){}.;,@]+) : (?!.*\b(?:tie|goal|statement)\b)", t) if odd(m[1])}
    # two names that would get one spelling: the lemma's, with a dash, gets `_lem`
    spelled = {}
    for old, new in table.items():
        spelled.setdefault(new, set()).add(old)
    for new, olds in spelled.items():
        if len(olds) > 1:
            for old in olds:
                if "-" in old:
                    table[old] = new + "_lem"
    labels = {f.replace("_", "-"): f for f in functions if "_" in f}
    changed = {}
    for p, text in texts.items():
        t = code(text) if p.endswith(".antt") else text
        if p.endswith(".antt"):
            kit, own = imports(t)
            walk = p not in laws
            here = set(re.findall(r"(?m)^(?:pub |abbrev |unfoldable )*([^\s(){}.;,@]+) : (?=.*\b(?:tie|goal|statement)\b)", t)) if walk else set()
            plain = re.sub(r"\b(?:use|mod) [^\s;{]+", "", t)
            present = {m[0] for m in NAME.finditer(plain) if not (m.start() and plain[m.start() - 1] == ".")}
            used = {}

            def turn(part, p=p, kit=kit, walk=walk, here=here, used=used):
                def one(m):
                    w = m[0]
                    dotted = m.start() > 0 and part[m.start() - 1] == "."
                    if dotted and OF_KIT.search(part, max(0, m.start() - 120), m.start()):
                        return w
                    if w in kit or w in here:
                        if not dotted or not walk:
                            return w
                    new = None
                    if walk and dotted and w in labels:
                        new = labels[w]
                    elif w in table and (not walk or w not in here):
                        new = table[w]
                    elif walk and w in helpers.get(p, ()):
                        new = snake(w)
                    if new is None or new == w:
                        return w
                    used.setdefault(new, set()).add(w)
                    return new

                return NAME.sub(one, part)

            new = quiet(text, turn)
            for n, olds in used.items():
                if n in present or len(olds) > 1:
                    print(f"meets: {p}: {', '.join(sorted(olds))} -> {n}" + (", which the file has" if n in present else ""))
        else:
            names = set()
            for m in re.finditer(r"ghost\s+use\s+([^\s;{]+)\.\{([^}]*)\}", text):
                if not KIT.match(m[1]):
                    names |= {w for item in m[2].split(",") for w in item.split() if w != "as"}
            turned = {w: table.get(w, snake(w)) for w in names if odd(w)}
            present = set(re.findall(r"\b\w+\b", text))

            def clause(m):
                return NAME.sub(lambda k: turned.get(k[0], table[k[0]] if k[0] in table and m.string[m.start() : m.end()].find("." + k[0]) >= 0 else k[0]), m[0])

            new = re.sub(r"ghost\s+use[^;]*;|(?m:^\s*(?:requires|ensures|ghost)\b[^\n]*\{.*\}\s*$)", clause, text)
            for w, n in turned.items():
                if n in present:
                    print(f"meets: {p}: {w} -> {n}, which the file has")
            held = {w.split()[-1] for m in re.finditer(r"ghost\s+use\s+[^\s;{]+\.\{([^}]*)\}", new) for w in m[1].split(",") if w.split()}
            for m in re.finditer(r"\bfn (\w+)(?:<[^(]*>)?\(([^)]*)\)", new):
                for k in re.findall(r"(\w+):", m[2]):
                    if k in held:
                        print(f"hides: {p}: parameter {k} of {m[1]}")
        if new != originals[p]:
            changed[p] = new
    if not check:
        for p, t in changed.items():
            with open(p, "w", encoding="utf-8") as f:
                f.write(t)
    print(f"{len(table)} names, {len(changed)} files")


if __name__ == "__main__":
    main(sys.argv[1:])
