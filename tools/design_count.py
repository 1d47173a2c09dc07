#!/usr/bin/env python3
"""Counts the places of the design pass: what today's Rattle can say better, by eight points (docs/DESIGN-PASS.md).

usage: tools/design_count.py [POINT] [--table] [--list]

Prints a line for each place, `POINT FILE:LINE FUNCTION-OR-TYPE  what`, and then the table. A POINT (1 to 8) prints only its places;
--table prints the table alone, --list the places in short form, by file.
It reads crates/*/src/**/*.rt without comments, `ghost use` and what stands below `#[cfg(test)]`, and for point 8 crates/*/proofs.
All is found by patterns over the text. A find is a candidate: some are well as they are.
"""
import collections
import difflib
import glob
import os
import re
import signal
import sys

ROOT = os.path.dirname(os.path.dirname(os.path.abspath(__file__)))
TITLES = {
    1: "own Option or Result, flags, sentinels, numbers for kinds and refusals",
    2: "twins: the same but for a type, a size or a constant",
    3: "loops that count or step by hand",
    4: "equality, order, copying, conversion and printing by hand",
    5: "parameters that travel together, and facts that recur in requires",
    6: "places and lengths beside slices, packed words, fixed arrays",
    7: "a parameter that picks the step",
    8: "proofs: candidates only",
}
INT = r"(?:u8|u16|u32|u64|usize)"
# the words of the code, which are no names
KEEP = {"if", "else", "while", "loop", "for", "in", "let", "mut", "return", "match", "as", "true", "false", "break", "self", "Self"}
LITERAL = r"(?:0x[0-9a-fA-F_]+|\d[\d_]*|b'[^']*')"

# ---------------------------------------------------------------- reading


def blank(text):
    """Spaces for what is left out, so that places stay."""
    return re.sub(r"[^\n]", " ", text)


def strip(text):
    """The code: comments, `ghost use` and tests blanked; and the same with the insides of strings and bytes masked."""
    cut = text.find("#[cfg(test)]")
    if cut >= 0:
        text = text[:cut] + blank(text[cut:])
    lex = re.compile(r"//[^\n]*|b?\"(?:[^\"\\]|\\.)*\"|b?'(?:[^'\\\n]|\\[^\n]+?)'(?!\w)|ghost use [^;]*;")
    code = lex.sub(lambda m: blank(m.group()) if m.group()[:2] in ("//", "gh") else m.group(), text)
    masked = lex.sub(lambda m: re.sub(r"[^\n\"'b]", "_", m.group()), code)
    return code, masked


def close(text, at):
    """The place behind the bracket that closes the one at `at`."""
    pairs = {"{": "}", "(": ")", "[": "]", "<": ">"}
    opening, closing, depth = text[at], pairs[text[at]], 0
    for i in range(at, len(text)):
        if text[i] == opening:
            depth += 1
        elif text[i] == closing and not (closing == ">" and text[i - 1] == "-"):
            depth -= 1
            if depth == 0:
                return i + 1
    raise ValueError("no %s" % closing)


def split(text, sep=",", angles=True):
    """Parts at the top level of brackets; `<` is one in the code, not in a contract."""
    parts, depth, last = [], 0, 0
    for i, c in enumerate(text):
        if c in "([{" or (angles and c == "<"):
            depth += 1
        elif c in ")]}" or (angles and c == ">" and text[i - 1] != "-"):
            depth -= 1
        elif c == sep and depth == 0:
            parts.append(text[last:i])
            last = i + 1
    return [p.strip() for p in parts + [text[last:]] if p.strip()]


def flat(text):
    return " ".join(text.split())


class Item:
    """A function, struct, enum or constant."""

    def __init__(self, **known):
        self.__dict__.update(known)

    def line(self, offset=None):
        return self.file.code.count("\n", 0, self.at if offset is None else offset) + 1

    def where(self):
        return "%s:%d" % (self.file.path, self.line())


class File:
    def __init__(self, path):
        self.path = os.path.relpath(path, ROOT)
        self.crate = self.path.split("/")[1]
        self.code, self.text = strip(open(path, encoding="utf-8").read())
        self.functions, self.structs, self.enums, self.constants = [], [], [], []
        self.read_functions()
        self.read_types()

    def owner(self, at):
        """The type of the `impl` that a place stands in."""
        for m in re.finditer(r"^impl\b(?:<[^>]*>)?([^{]*)\{", self.text, re.M):
            if m.start() < at < close(self.text, m.end() - 1):
                return re.sub(r"<[^>]*>", "", m.group(1).split(" for ")[-1]).strip()
        return ""

    def read_functions(self):
        for m in re.finditer(r"\bfn (\w+)\s*", self.text):
            at = m.end()
            if self.text[at] == "<":
                at = close(self.text, at)
            if self.text[at] != "(":
                continue
            end = close(self.text, at)
            params = []
            for p in split(self.text[at + 1:end - 1]):
                name, _, kind = p.partition(":")
                params.append((name.replace("mut ", "").strip(), re.sub(r"'\w+ ", "", flat(kind))))
            body = re.compile(r"\b(?:requires|ensures)\b(?:\s+\w+)?\s*\{|\{|;").search
            mark = body(self.text, end)
            array = re.compile(r"\s*->\s*\[[^\]]*\]").match(self.text, end)
            if array:
                mark = body(self.text, array.end())
            result = flat(self.text[end:mark.start()]).removeprefix("->").strip()
            clauses = []
            while mark.group()[0] in "re":
                stop = close(self.text, mark.end() - 1)
                clauses.append((mark.group().split()[0].rstrip("{"), flat(self.text[mark.end():stop - 1])))
                mark = body(self.text, stop)
            if mark.group() == ";":
                continue
            stop = close(self.text, mark.start())
            owner = self.owner(m.start())
            self.functions.append(Item(
                file=self, name=m.group(1), full=(owner + "::" if owner else "") + m.group(1), owner=owner, at=m.start(1), params=params,
                result=result, clauses=clauses, start=mark.end(), body=self.text[mark.end():stop - 1],
                code=self.code[mark.end():stop - 1]))

    def read_types(self):
        for m in re.finditer(r"\b(struct|enum) (\w+)(?:<[^>]*>)?\s*([({])", self.text):
            inside = self.text[m.end():close(self.text, m.end() - 1) - 1]
            item = Item(file=self, name=m.group(2), full=m.group(2), at=m.start(2))
            if m.group(1) == "enum":
                item.variants = [(re.match(r"\w+", v).group(), re.sub(r"^\w+\s*", "", v)) for v in split(inside)]
                self.enums.append(item)
            else:
                item.fields = []
                for i, f in enumerate(split(inside)):
                    f = re.sub(r"^pub(\([^)]*\))?\s+", "", f)
                    name, _, kind = f.partition(":") if m.group(3) == "{" else (str(i), "", f)
                    item.fields.append((name.strip(), flat(kind)))
                self.structs.append(item)
        for m in re.finditer(r"\bconst (\w+): ([^=]+?) = ([^;]*(?:;[^;\]]*\])?);", self.text):
            self.constants.append(Item(file=self, name=m.group(1), full=m.group(1), at=m.start(1), kind=m.group(2), value=m.group(3)))


FILES = [File(p) for p in sorted(glob.glob(os.path.join(ROOT, "crates/*/src/**/*.rt"), recursive=True))]
FUNCTIONS = [f for x in FILES for f in x.functions]
STRUCTS = [s for x in FILES for s in x.structs]
ENUMS = [e for x in FILES for e in x.enums]
CONSTANTS = [c for x in FILES for c in x.constants]
FOUND = []


def find(point, item, what, offset=None):
    line = item.line(offset)
    row = (point, item.file.path, line, item.full, flat(what))
    if row not in FOUND:
        FOUND.append(row)


def each(point, pattern, what, functions=None, code=False, once=False):
    """A line for each match in a function's body; `what` may name the matched text by {0}, {1}, .."""
    for f in FUNCTIONS if functions is None else functions:
        for m in re.finditer(pattern, f.code if code else f.body, re.S):
            find(point, f, what.format(flat(m.group()), *m.groups()), None if once else f.start + m.start())
            if once:
                break


def slices(f):
    return [n for n, t in f.params if re.fullmatch(r"&(?:mut )?\[\w+(?:; \w+)?\]", t)]


def calls(f):
    """Each call in a body: its place, its name and its arguments."""
    for m in re.finditer(r"\b(\w+)\(", f.body):
        end = close(f.body, m.end() - 1) - 1
        yield m.start(), m.group(1), split(f.body[m.end():end]), flat(f.code[m.end():end])


# ---------------------------------------------------------------- 1

def holds_none(e):
    """By its shape: one variant that holds values, one or two that hold none."""
    holders = [n for n, p in e.variants if p]
    return len(holders) == 1 and len(e.variants) in (2, 3)


def is_result(e):
    """A variant called as those of Option and Result, or one that holds a refusal, and one that holds values."""
    called = [n for n, p in e.variants if n in ("Ok", "Err", "Some", "None", "Refused", "Passed") or "Refusal" in p]
    return bool(called) and any(p for _, p in e.variants)


def is_verdict(e):
    """No variant holds a value, and one of them says that there is nothing more, or nothing good."""
    return not any(p for _, p in e.variants) and len(e.variants) <= 3 and any(
        n in ("End", "Cut", "Different", "None", "Over", "Refused") for n, _ in e.variants)


NUMBERS = r"(?:kind|number|radix|align|flags|mode|found|present|dots)"
# integer constants that a function gives back in place of a value
SENTINELS = [c for c in CONSTANTS if re.fullmatch(INT, c.kind) and any(
    re.search(r"(?:return |Ok\(|=> |^\s*)%s\b\s*[;,)]?\s*$" % c.name, f.body, re.M) for f in FUNCTIONS if f.file.crate == c.file.crate)]


def coded(f):
    """Whether a function gives a number for an outcome or a kind: a literal or one of SENTINELS given back."""
    if not re.fullmatch(r"(?:io::Result<)?%s>?" % INT, f.result):
        return False
    given = "|".join([LITERAL] + [c.name for c in SENTINELS if c.file.crate == f.file.crate])
    forms = (r"\breturn (?:Ok\()?(?:%s)\)?;" % given, r"=> (?:%s)," % given, r"^\s*(?:Ok\()?(?:%s)\)?\s*$" % given,
             r"if [^{}]*\{ (?:%s) \} else \{ (?:%s) \}" % (given, given))
    return any(re.search(x, f.body, re.M) for x in forms)


def hands_on(f, codes):
    """Whether a function gives back what one of `codes` gave."""
    if not re.fullmatch(r"(?:io::Result<)?%s>?" % INT, f.result):
        return False
    names = "|".join(r"(?:\w+::)*" + n if crate == f.file.crate else r"%s::(?:\w+::)*%s" % (crate, n) for crate, n in sorted(codes))
    return bool(re.search(r"(?:return |=> |(?:\A|[;{}])\s*)(?:Ok\()?(?:%s)\(" % names, f.body))


def coded_all():
    codes, before = {(f.file.crate, f.name) for f in FUNCTIONS if coded(f)}, None
    while codes != before:
        before = set(codes)
        codes |= {(f.file.crate, f.name) for f in FUNCTIONS if hands_on(f, before)}
    return codes


def point1():
    for e in ENUMS:
        names = ", ".join(n + p for n, p in e.variants)
        if holds_none(e):
            find(1, e, "enum of the shape of Option (one variant holds values): " + names)
        elif is_result(e):
            find(1, e, "enum of the shape of Result (a variant holds or is a refusal): " + names)
        elif is_verdict(e):
            find(1, e, "enum of verdicts with one for nothing: " + names)
    for c in SENTINELS:
        find(1, c, "constant given back in place of a value: %s" % c.value)
    for c in CONSTANTS:
        if c.value.count("255") > 8:
            find(1, c, "table with 255 for none")
    codes = coded_all()
    names = {n for _, n in codes}
    for f in FUNCTIONS:
        if coded(f):
            find(1, f, "gives back a number for an outcome or a kind: %s" % f.result)
        elif hands_on(f, codes):
            find(1, f, "hands such a number on: %s" % f.result)
        for at, name, _, _ in calls(f):
            then = f.body[close(f.body, at + len(name)):]
            if name in names and re.match(r"\s*(?:==|!=) ", then):
                find(1, f, "compares the number that %s gave" % name, f.start + at)
            elif name != "len" and name not in KEEP and re.match(r"\s*(?:==|!=) 0\b", then):
                find(1, f, "answer against 0: %s(..)" % name, f.start + at)
        used = [e.name for e in ENUMS if (holds_none(e) or is_result(e) or is_verdict(e)) and re.search(r"\b%s::" % e.name, f.body)]
        if used:
            find(1, f, "makes or matches own " + ", ".join(dict.fromkeys(used)))
        for n, t in f.params:
            if re.fullmatch(NUMBERS, n) and re.fullmatch(INT, t):
                find(1, f, "parameter that is a kind, a choice or a refusal by number: %s: %s" % (n, t))
        for m in re.finditer(r"let (?:mut )?(\w+)(?:: \w+)? = (?:\w+::)*(\w+)\(", f.body):
            if m.group(2) in names:
                if re.search(r"if [^{]*\b%s\b" % m.group(1), f.body[m.end():]):
                    find(1, f, "asks what the number says that %s gave" % m.group(2), f.start + m.start())
    for s in STRUCTS:
        for n, t in s.fields:
            tested = [f for f in FUNCTIONS if f.file.crate == s.file.crate and re.search(r"if !?(?:\w+\.)+%s\b" % n, f.body)]
            if t == "bool" and tested and any(k != "bool" for _, k in s.fields):
                find(1, s, "flag beside values, tested: %s" % n)
                each(1, r"if !?(?:\w+\.)+%s\b" % n, "a flag tested: {0}", tested)
            if re.fullmatch(r"P[A-Z]\w+", t) and any(re.search(r"\b%s\.0 [=!]= 0\b" % n, f.body) for f in FUNCTIONS):
                find(1, s, "field where 0 is for none: %s: %s" % (n, t))
            if re.fullmatch(NUMBERS, n) and re.fullmatch(INT, t):
                find(1, s, "field that is a kind or a refusal by number: %s: %s" % (n, t))
    each(1, r"\b(?:\w*refuse\w*|Refused)\(\s*\d+", "refusal by a literal: {0})")
    each(1, r"\bnumber:\s*\d+", "refusal by a literal: {0}")
    each(1, r"\b(?:\w+\.)*%s\b(?: [/%%] %s)* (?:==|!=|<=|<|>=|>) %s" % (NUMBERS, LITERAL, LITERAL), "kind against a literal: {0}")
    each(1, r"%s (?:<=|<) (?:\w+\.)*%s\b" % (LITERAL, NUMBERS), "kind against a literal: {0}")
    each(1, r"\bkind_at\([^()]*\) (?:==|!=|<) %s|%s (?:<=|<) kind_at\(" % (LITERAL, LITERAL), "kind against a literal: {0}")
    each(1, r"[\w.]+ / %s %% %s (?:==|!=) %s|[\w.]+ %% \d+ == [1-9]\d*" % (LITERAL, LITERAL, LITERAL), "kind or flag in a number: {0}")
    each(1, r"\w+\(\d+, \d+, (?:\w+\.)*%s\)" % NUMBERS, "kind against literals: {0}")
    each(1, r"(?<=\n)\s*\d+ => \w+::\w+", "kind by number: {0}", once=True)
    each(1, r"if [\w.]+(?:\([^()]*\))? == 0 \{\s*return (?:\w+::None|[^;]*b\" ?-\"|[^;]*b'-')", "0 for none: {0}", code=True)
    ends = {f.name for f in FUNCTIONS if re.fullmatch(r"P[A-Z]\w+", f.result) and re.search(r"\(0\)|\.0 [=!]= ", f.body)}
    for f in FUNCTIONS:
        if f.name in ends:
            find(1, f, "gives back a place, one of them perhaps for none: %s" % f.result)
        elif re.fullmatch(r"P[A-Z]\w+", f.result) and re.match(r"\s*(?:%s)\(" % "|".join(ends), f.body):
            find(1, f, "hands such a place on: %s" % f.result)
    for c in SENTINELS:
        each(1, r"[\w)]+ (?:==|!=) %s\b" % c.name, "against a sentinel: {0}", [f for f in FUNCTIONS if f.file.crate == c.file.crate])
    each(1, r"(?:\w+\.)+0 (?:==|!=|<=) 0\b", "place 0 for none: {0}")
    each(1, r"(?:\w+\.)+len (?:==|!=) 0\b", "an empty text for none: {0}")
    each(1, r"\b(?:concatenation|component)(?:: 0\b| == 0\b)", "place 0 for none: {0}")
    each(1, r"\bP[A-Z]\w+\(0\)", "place 0, as a start or for none: {0}")
    places = [f for f in FUNCTIONS if sum(t == "PBind" for _, t in f.params) > 1]
    each(1, r"(?:\w+\.)+0 (?:==|!=) (?:\w+\.)+0\b", "a place that is the end's: empty, or none: {0}", places)
    each(1, r"\b\w+::\w+\((\w+)\)\s*=>\s*\{?\s*(?:return )?(?:\w+::)+\w+\(\1\)", "handed from one enum to another: {0}")
    each(1, r"\b\w+::Refused\(\w+\)\s*=>\s*\w+ \{", "a refusal handed on in a struct: {0}")
    each(1, r"\b(\w+)::Refused\((\w+)\)\s*=>\s*\{?\s*(?:return )?[\w:]*\(?\2\b", "a refusal handed on: {0}")
    each(1, r"let (?:\w+::)+\w+(?:\(\w+\))? = [^;{]* else \{\s*return [^;]*;", "a refusal or none handed on: {0}")
    each(1, r"if is_refused\((\w+)\) \{\s*return \w+;", "a refusal handed on: {0}")
    each(1, r"\b\w+::(?:None|Cut|End|NoRange|Passed) => (?:\w+::)*\w+(?:\([^()]*\))?(?=,)", "none handed on: {0}")


# ---------------------------------------------------------------- 2


def tokens(f, calls):
    """The body's tokens with numbers, types, constants and values named alike; the names of calls kept or not."""
    out = []
    body = re.sub(r"\b(?:[a-z]\w*::)+", "", f.body)
    for m in re.finditer(r"b?\"[^\"]*\"|%s|\w+|[^\w\s]" % LITERAL, body):
        t, then = m.group(), body[m.end():m.end() + 1]
        if t in KEEP or not re.match(r"[\w\"b]", t):
            out.append(t)
        elif re.match(r"b?\"", t):
            out.append("text")
        elif re.fullmatch(LITERAL, t):
            out.append("1")
        elif re.fullmatch(INT + r"|[A-Z]\w*", t):
            out.append("T")
        else:
            out.append((t if calls else "f") if then == "(" else "v")
    return out


def alike(a, b, least):
    """The ratio of two lists of tokens, 0 where it is below `least`."""
    if min(len(a), len(b)) * 2 < least * (len(a) + len(b)):
        return 0
    m = difflib.SequenceMatcher(None, a, b, False)
    if m.real_quick_ratio() < least or m.quick_ratio() < least:
        return 0
    r = m.ratio()
    return r if r >= least else 0


def kinds(f):
    """The parameters' types, texts of any length alike."""
    return [re.sub(r"\b%s\b" % INT, "N", t) for _, t in f.params]


def joined(k):
    """The tokens with a field read as a value: `v.v` is `v`."""
    return [t for i, t in enumerate(k) if not (t == "v" and k[i + 1:i + 2] == ["."] or t == "." and k[i - 1] == "v")]


def passage(a, b, x, y):
    """What two functions share, though their bodies as a whole are not alike."""
    if min(len(x), len(y)) >= 30 and a.grams & b.grams:
        x, y = joined(x), joined(y)
        m = difflib.SequenceMatcher(None, x, y, False).find_longest_match(0, len(x), 0, len(y))
        shared = x[m.a:m.a + m.size]
        if m.size >= 28 and (m.size >= 34 or any(re.match(r"[a-z]\w+$", t) and t not in KEEP for t in shared)):
            return "a passage of %d tokens alike" % m.size
    sizes = [re.findall(r"(\d+) \* \(", f.body) for f in (a, b)]
    if len(sizes[0]) >= 3 and sizes[0] == sizes[1]:
        return "the same sizes: " + ", ".join(sizes[0])
    if a.file is not b.file and a.file.crate != b.file.crate:
        return None
    built = [re.match(r"\s*(\w+::\w+\(\w+) \{", f.body) for f in (a, b)]
    if all(built) and built[0].group(1) == built[1].group(1) and a.file.crate == b.file.crate:
        return "both build %s" % built[0].group(1)
    first = [re.match(r"\s*if [^{}]*\{\s*return [^{};]*;\s*\}", f.code) for f in (a, b)]
    if all(first) and first[0].group().split() == first[1].group().split() and "len()" not in first[0].group():
        if a.file is b.file or "%" in first[0].group():
            return "begins alike: " + flat(first[0].group())
    if a.file is b.file:
        tests = [set(re.findall(r"\bif ([^{}]*?) \{", f.code)) for f in (a, b)]
        if len(tests[0]) >= 2 and tests[0] == tests[1] and kinds(a) == kinds(b):
            return "the same tests: " + ", ".join(sorted(tests[0]))
        if 12 <= min(len(x), len(y)) <= 40 and max(len(x), len(y)) <= 2 * min(len(x), len(y)):
            common = sum(m.size for m in difflib.SequenceMatcher(None, x, y, False).get_matching_blocks())
            calls = [{t for t in k if re.match(r"[a-z]\w+$", t)} for k in (x, y)]
            if common == min(len(x), len(y)) and calls[0] == calls[1] and x.count("f") == 0 and x.count(";") >= 2:
                return "one body is a part of the other"
    return None


def point2():
    shapes = collections.defaultdict(list)
    for e in ENUMS:
        if holds_none(e):
            shapes["Option"].append(e)
        elif is_result(e):
            shapes["Result"].append(e)
    shapes["Result"] += [e for e in shapes["Option"] if any(n == "Refused" for n, p in e.variants if p)]
    for name, group in shapes.items():
        for e in group:
            find(2, e, "one of %d enums of the shape of %s" % (len(group), name))
    for i, a in enumerate(STRUCTS):
        for b in STRUCTS[i + 1:]:
            shared = {n for n, _ in a.fields} & {n for n, _ in b.fields}
            types = shared and [t for _, t in a.fields] == [t for _, t in b.fields]
            if a.name == b.name or types or (len(shared) >= 3 and len(shared) * 2 > len(a.fields)):
                find(2, a, "type like %s (%s)" % (b.full, b.where()))
                find(2, b, "type like %s (%s)" % (a.full, a.where()))
    arrays = [f for f in FUNCTIONS if re.fullmatch(r"\s*\[\w+; [\w:]+\]\s*", f.body)]
    for f in arrays:
        find(2, f, "one of %d functions that only make an array" % len(arrays))
    loose = {id(f): tokens(f, False) for f in FUNCTIONS}
    strict = {id(f): tokens(f, True) for f in FUNCTIONS}
    for f in FUNCTIONS:
        k = joined(strict[id(f)])
        f.grams = {tuple(k[i:i + 14]) for i in range(len(k) - 13)}
    for i, a in enumerate(FUNCTIONS):
        for b in FUNCTIONS[i + 1:]:
            short = min(x.body.strip().count("\n") + 1 for x in (a, b)) < 3
            size = min(len(loose[id(a)]), len(loose[id(b)]))
            why = None
            if a.name == b.name and a.name not in ("main", "new", "fmt"):
                contract = a.clauses and a.clauses == b.clauses
                near = alike(loose[id(a)], loose[id(b)], 0.5)
                if contract or kinds(a) == kinds(b) or near:
                    why = "same name%s%s" % (" and contract" if contract else "", ", body alike %.2f" % near if near else "")
            elif [x for x, _ in a.clauses] and [c for c in a.clauses] == [c for c in b.clauses]:
                why = "same contract"
            if not why and size >= 8:
                r = alike(loose[id(a)], loose[id(b)], 0.85)
                # a short body says too little: the parameters' types must agree too
                same = [t for _, t in a.params] == [t for _, t in b.params] and alike(strict[id(a)], strict[id(b)], 0.85)
                if r and (same or (r == 1 and kinds(a) == kinds(b)) if short else alike(strict[id(a)], strict[id(b)], 0.6)):
                    why = "body alike %.2f" % r
            if not why:
                why = passage(a, b, strict[id(a)], strict[id(b)])
            if why:
                find(2, a, "%s: %s (%s)" % (why, b.full, b.where()))


# ---------------------------------------------------------------- 3

def block(f, at):
    """The block that opens at or behind `at`, and what stands before it."""
    opening = f.body.index("{", at)
    return f.body[at:opening], f.body[opening:close(f.body, opening)]


def point3():
    for f in FUNCTIONS:
        for m in re.finditer(r"\bwhile\b", f.body):
            head, inside = block(f, m.end())
            for v in re.findall(r"(?<![\w.])[a-z]\w*", head):
                step = re.search(r"(?<![\w.])%s(?:\.0)? ([+-]?=) ([^;]+);" % v, inside)
                if step:
                    find(3, f, "while%s%s %s %s" % (head, v, step.group(1), step.group(2)), f.start + m.start())
                    break
        for m in re.finditer(r"\bloop\b", f.body):
            _, inside = block(f, m.end())
            steps = re.findall(r"\b\w+ [+-]= \w+|\b\w+ = \w+ [+-] 1", inside)
            if steps:
                find(3, f, "loop: " + ", ".join(steps), f.start + m.start())
        for m in re.finditer(r"\bfor (\w+) in [^{]*\.\.", f.body):
            _, inside = block(f, m.end())
            if re.search(r"\[%s\]" % m.group(1), inside):
                find(3, f, "for over places: %s" % m.group(), f.start + m.start())
        if re.search(r"\w+ - 1 - \w+|\w+ - \w+ - 1\b", f.body):
            find(3, f, "counts from the end by hand (rev)")
        if re.search(r"\b%s\([^;]*\b\w+ - 1\b" % f.name, f.body):
            find(3, f, "calls itself with a count one less")


# ---------------------------------------------------------------- 4

BIG = r"(?:256|65536|16777216|4294967296|0x1_0000_0000|0x1_0000|0x100_0000_0000)"
NUMERIC = r"(?:\d+|\w+ as u64|\w+ as u32|0x[0-9a-f_]+|(?:\w+\.)number)"


def point4():
    each(4, r"(?:\w+\.)+0 (?:==|!=) (?:\w+\.)+0\b", "equality through .0: {0}")
    each(4, r"(?:\w+\.)+0 (?:<|<=) (?:\w+\.)+0\b", "order through .0: {0}")
    each(4, r"(?:\w+\.)+0 [+-] (?:\w+\.)*\w+", "sum through .0: {0}")
    each(4, r"\b(\w+)\(\w+\) == \1\(\w+\)", "equality by numbers: {0}")
    each(4, r"\bis_\w+\([^(),]*, (?:\w+::\w+|\w+)\)", "equality or a test by a function: {0}")
    for f in FUNCTIONS:
        # a body that is one match
        if re.match(r"\s*match [^{]*\{", f.body) and close(f.body, f.body.index("{")) >= len(f.body.rstrip()):
            arms = re.findall(r"=> ([^\n]*?),?\n", f.body)
            if f.result == "bool" and any(a in ("true", "false") for a in arms):
                find(4, f, "a test of a variant by hand (matches!, is_some, is_some_and)")
            elif any(re.fullmatch(NUMERIC, a) for a in arms):
                find(4, f, "a variant as a number by hand (From, Into)")
            elif re.search(r"^\s*\d+ => ", f.body, re.M):
                find(4, f, "a number as a variant by hand (TryFrom)")
            elif re.search(r"\b\w+::(?:Some|Ok)\((\w+)\) => \1,", f.body):
                find(4, f, "a value or another one by hand (unwrap_or)")
            elif len(f.params) == 1 and f.result[:1].isalpha() and not re.fullmatch(INT + "|bool", f.result) and f.params[0][0] != "self":
                find(4, f, "a conversion by a function (From, map)")
            elif re.search(r"\b\w+::None => \w+::None", f.body):
                find(4, f, "map or and_then of an Option by hand")
        by_flag = re.match(r"\s*if !?\w+ \{\s*(?:\w+::\w+|if)\b", f.body) and f.result[:1].isupper()
        if by_flag and re.search(r"\b[A-Z]\w+::[A-Z]\w+\s*\}", f.body):
            find(4, f, "a flag as a variant by hand (From<bool>)")
        if f.result == "bool":
            rest = re.sub(r"if [^{}]*\{\s*return (?:true|false);\s*\}", "", f.body)
            if rest != f.body and not re.search(r"\b(?:while|for|loop|let mut)\b", f.body):
                find(4, f, "&& or || by early returns")
            if re.search(r"\{ (?:true|false) \} else \{|else \{ (?:true|false) \}|\{\s*(?:true|false)\s*\} else", f.body):
                find(4, f, "&& or || by if")
        n = len(re.findall(r"\b(?:both|either)\(", f.body))
        if n:
            find(4, f, "both(..), either(..) for && and ||: %d" % n)
        if re.search(r"\.(?:high|low)\b|\bhigh\b[^;]*\blow\b", f.body):
            find(4, f, "a number of 128 bits by its halves")
        kept = re.findall(r"^\s*let (\w+) = \w+(?:\.\w+)*\.\1;", f.body, re.M)
        if len(kept) >= 2:
            find(4, f, "fields copied out first: " + ", ".join(kept))
        for m in re.finditer(r"\b([A-Z]\w*) \{\n", f.body):
            inside = f.body[m.end() - 2:close(f.body, m.end() - 2)]
            same = re.findall(r"\b(\w+): \w+\.\1\b", inside)
            same += [n for n in re.findall(r"^\s*(\w+),$", inside, re.M) if re.search(r"let %s = \w+\.%s;" % (n, n), f.body)]
            if len(same) >= 2:
                find(4, f, "%s rebuilt by fields (..old): %s" % (m.group(1), ", ".join(same)), f.start + m.start())
        if f.result.startswith("Option") and re.search(r"return \w+::None;|\{\s*\w+::None\s*\}", f.body) and "::Some(" in f.body:
            find(4, f, "an Option built by hand (checked_.., zip, then_some)")
        if len(re.findall(r"if (\w+)(?:\.\w+)* == %s \{\s*return" % LITERAL, f.body)) >= 2:
            find(4, f, "a match by ifs")
        for what, text in f.clauses:
            if what == "ensures" and re.search(r"result ≡ u32_at \S+ at$|≡ sets \S+ at \((?:u32|word_bytes) n\)$", text):
                find(4, f, "a little-endian number read or written by hand (from_le_bytes, to_le_bytes)")
        texts = re.findall(r"return \w+\([^;]*b\"[^\"]*\"\)", f.code)
        if len(texts) >= 2:
            find(4, f, "words of a kind by hand (Display)")
        tests = re.findall(r"\b(\w+)(?:\.\w+)?\.\w+ == ", f.body)
        if any(tests.count(t) > 1 for t in tests) and f.result == "bool":
            find(4, f, "equality field by field")
        if re.match(r"\s*[^;{]* (?:&&|\|\|) [^;{]*$", f.body) and len(f.params) == 2 and f.body.strip().count(" ") == 2:
            find(4, f, "&& or || as a function")
        if re.search(r"\b(\w+) = \w+\(\w+, \1, \w+\[\w+\]\);", f.body):
            find(4, f, "bytes put one by one in a loop (copy_from_slice)")
        if re.search(r"\b(\w+) = (?:\w+::)*\w+\([^;]*\b\1\b", f.body) and re.search(r"\bwhile\b", f.body):
            find(4, f, "a fold by hand: a value handed from turn to turn")
        if re.search(r"\bwhile\b", f.body) and re.search(r"\{\s*return (?:false|[\w:]+\(?\w*\)?);\s*\}", f.body):
            find(4, f, "all, any, find or position by a loop")
    each(4, r"[\w)] [*/%%] %s\b|\b%s \* [(\w]" % (BIG, BIG), "bytes or halves by arithmetic (to_le_bytes, from_le_bytes): {0}", once=True)
    each(4, r"\[(\w+)\].*?\[\1 \+ 1\]", "bytes or words one by one", once=True)
    each(4, r"\b(\w+)\((\w+), (\w+), 1\b[^;]*\b\1\(\2, \3, 2", "bytes one by one", once=True)
    each(4, r"\bput_on\([^;]*;\s*put_on", "bytes one by one", once=True)
    each(4, r"if (\w+) <=? (\w+) \{\s*\1\s*\} else \{\s*\2\s*\}", "min or max by hand: {0}")
    each(4, r"if ([^{}]+?) <=? ([^{}]+?) \{\s*[^{};]*[+-] \w+\s*\} else \{\s*\w+\s*\}",
         "min, or a saturating or bounded sum, by hand: {0}")
    each(4, r"return &\w+\[\.\.0\]", "get(..) or an empty part by hand", once=True)
    each(4, r"if \w+ == 0 \{\s*0\s*\} else \{\s*\w+ - 1\s*\}", "saturating_sub by hand: {0}")
    each(4, r"if ([^{}]+?) < \w+\.len\(\)[^{}]* \{ \w+\[[^\]]*\] \} else \{ 0 \}", "get(..) or 0 by hand: {0}")
    each(4, r"if [^{}]*\{\s*(?:\d+|\w+)\s*\} else \{\s*0\s*\}", "a number of a flag by hand (From<bool>): {0}")
    each(4, r"if (\w+) == (\w+) \{\s*\w+\s*\} else \{\s*\1 < \2", "order by parts by hand (derive, then): {0}")
    each(4, r"if [^{}]*<= [^{}]* - \w+ \{\s*\w+::Some", "checked_add by hand: {0}")
    each(4, r"if (\w+) < (\w+) \{\s*\w+ \{ value: \w+, carry", "carry by hand (overflowing_add, carrying): {0}", once=True)
    each(4, r"\+ 7\) / 8", "div_ceil by hand: {0}", once=True)
    each(4, r"\b1(?:u32)? << ", "a power of two by hand: {0}")
    each(4, r"0x[fF]{4}_[fF]{4}_[fF]{4}_[fF]{4}|0x8000_0000_0000_0000|usize::MAX - \w+ <", "MAX, MIN or checked_add by hand: {0}")
    each(4, r"\w+\[[^\]]* \+ (\w+)\] = \w+\[[^\]]* \+ \1\];", "copy_from_slice by hand: {0}")
    each(4, r"\w+\[[^\]]* \+ \w+\] = 0;", "fill by hand: {0}")
    each(4, r"\w+\[[^\]]* \+ (\w+)\] != \w+\[[^\]]* \+ \1\]", "== of slices by hand: {0}")
    each(4, r"\w+\(\w+, \w+, (\w+), (?:\w+\(\w+, \w+, \1\)|\w+)\);\s*\1 \+= 1", "bytes copied one by one: {0}")
    each(4, r"(?<!fn )\bleast\(", "min as a function: {0})", once=True)
    each(4, r"(\S+) <= (\w+)(?: &&|,) \2 <= \S+", "a range's contains by hand: {0}")
    each(4, r"if (\w+) < %s \{\s*return [^;]*;\s*\}\s*if %s < \1\b" % (LITERAL, LITERAL), "a range's contains by hand: {0}")
    each(4, r"\w+ (?:% 10|/ 10|\* 10)\b", "decimal by hand: {0}", once=True)
    each(4, r"b'[0a]' \+ |- b'0'|\b48 \+", "a digit by hand (from_digit, to_digit): {0}", code=True, once=True)
    each(4, r"std::num::wrapping_\w+\(", "a function for a method (wrapping_add ..): {0}", once=True)
    for f in FUNCTIONS:
        if re.fullmatch(r"\w+_to_\w+", f.name) and len(f.params) == 1 or re.match(r"\s*\w+ as \w+\s*$", f.body):
            find(4, f, "conversion by a function (From)")
        if re.fullmatch(r"\s*let (\w+) = \w+ as usize;\s*\w+\[\1\]\s*", f.body):
            find(4, f, "a table asked by a function (to_digit)")
    for s in STRUCTS:
        if [n for n, _ in s.fields] == ["high", "low"]:
            find(4, s, "a number of 128 bits as two halves")


# ---------------------------------------------------------------- 5

def bare(text):
    """Without the brackets around all of it."""
    while text.startswith("(") and close(text, 0) == len(text):
        text = text[1:-1].strip()
    return text


def parts(text):
    """A clause taken apart at its top-level signs of a product."""
    text = bare(text)
    found = split(text, "×", False)
    return [text] if len(found) < 2 else [q for p in found for q in parts(p)]


def facts(f, kind):
    """What a function's requires demand, or what its ensures assume, with parameters by their types and numbers as n."""
    names = {n: re.sub(r"[&\[\]; ]|mut", "", t) for n, t in f.params}
    names["self"] = f.owner
    out = []
    for what, text in f.clauses:
        pieces = [text] if what == "requires" else split(text, "→", False)[:-1]
        for p in [q for t in pieces for q in parts(t)] if what == kind else []:
            if re.fullmatch(r"\(?[\w ]+ : [^×]*", p) or re.fullmatch(r"(?:\([^()]* : [^()]*(?:\([^()]*\))?[^()]*\)\s*)+", p):
                continue
            p = re.sub(r"«(\w+)»", r"\1", p)
            p = re.sub(r"\.(?:now|old)\b", "", re.sub(r"(?<![.\w])\d+\b", "n", p))
            out.append(re.sub(r"(?<![.\w])[a-z_]\w*", lambda m: names.get(m.group(), m.group()), p))
    return out


def point5():
    sets = collections.defaultdict(list)
    for f in FUNCTIONS:
        group = frozenset((n, t) for n, t in f.params if n not in ("self", "&self"))
        if len(group) >= 2:
            sets[group].append(f)
    # closed groups: what any number of functions have in common
    closed, new = set(sets), set(sets)
    while new:
        more = {a & b for a in new for b in sets if len(a & b) >= 2} - closed
        closed |= more
        new = more
    users = {g: [f for k, fs in sets.items() if g <= k for f in fs] for g in closed}
    # two parameters in five functions, three or more in three
    kept = [g for g in closed if len(users[g]) >= (5 if len(g) == 2 else 3)]
    # a group is left out where a larger one has nearly the same functions
    kept = [g for g in kept if not any(g < h and len(users[h]) * 4 >= len(users[g]) * 3 for h in kept)]
    for g in sorted(kept, key=lambda g: (-len(users[g]), sorted(g))):
        order = [n for n, t in users[g][0].params if (n, t) in g]
        text = ", ".join("%s: %s" % (n, dict(g)[n]) for n in order)
        names = ", ".join(f.full for f in users[g])
        find(5, Item(file=users[g][0].file, at=users[g][0].at, full="(%s)" % ", ".join(order)), "(%s) in %d functions: %s" % (
            text, len(users[g]), names))
    for kind, says in (("requires", "required"), ("ensures", "assumed in the ensures")):
        where = collections.defaultdict(list)
        for f in FUNCTIONS:
            for fact in dict.fromkeys(facts(f, kind)):
                where[fact].append(f)
        for fact, fs in sorted(where.items(), key=lambda x: -len(x[1])):
            if len(fs) >= 3:
                find(5, Item(file=fs[0].file, at=fs[0].at, full="{ %s }" % fact), "%s by %d functions: %s" % (
                    says, len(fs), ", ".join(f.full for f in fs)))


# ---------------------------------------------------------------- 6

BESIDE = (r"(?:at|from|to|n|m|s|t|p|q|r|place|len|length|count|start|stop|end|unused|lent|base|literal|literals|components|records"
          r"|text|steps|all|a|b|c|d|e|i|k|w)")
PLACES = (r"(?:at|from|to|len|start|stop|end|r|k|l|text|records|components|literals|offset|record|lo|hi|first|after|plus|pair"
          r"|minus)")


def point6():
    for f in FUNCTIONS:
        lists = slices(f)
        words = [n for n, t in f.params if re.fullmatch(r"&(?:mut )?\[u64\]", t)]
        for w in words:
            if re.search(r"\b%s\[" % w, f.body) or re.search(r"\b%s, [^,;)]*[*+]|\b%s, w\b" % (w, w), f.body):
                find(6, f, "records in words of a flat array: %s" % w)
        beside = [n for n, t in f.params if re.fullmatch(INT + r"|P[A-Z]\w+", t) and re.fullmatch(BESIDE, n)]
        if lists and beside:
            find(6, f, "a place or a length beside a slice: %s beside %s" % (", ".join(beside), ", ".join(lists)))
        for n, t in f.params:
            if re.fullmatch(r"&(?:mut )?\[\w+; \w+\]", t):
                find(6, f, "an array of a fixed length, by number: %s: %s" % (n, t))
        if re.fullmatch(r"\[\w+; [\w:]+\]", f.result):
            find(6, f, "an array of a fixed length: %s" % f.result)
        for m in re.finditer(r"let (?:mut )?(\w+) = (?:\w+::)*(?:\[0?x?\w+; [\w:]+\]|(?:\w*_buffer|area)\(\))", f.body):
            name = m.group(1)
            used = re.search(r"\b%s\[[^\]]*\.\.[^\]]*\]" % name, f.body)
            find(6, f, "a fixed array%s: %s" % (" of which a part is used" if used else "", m.group()), f.start + m.start())
    stride = (r"\b(?:2|4|8|11|12|20|72) \* (?:\(?\w+(?:\.0)?(?: as usize)?|\(\()|\b\w+(?:::\w+)*_SIZE \* \("
              r"|\.len\(\) / \d+|\) / (?:8|12)\) as")
    read = r"\b(?:\w*u32\w*|put_u64|four_at|number_at|number_is|width_at)\(&?\w+, (?:\w+ \+ )?\d+"
    each(6, read, "fields of a record by their places: {0}..", once=True)
    each(6, stride, "records by their place and size: {0}", once=True)
    each(6, r"\w+(?:\.\w+)* / \d+ % [28]\b|\bflags % \d", "flags or kinds packed in a number", once=True)
    each(6, r"\w+\.\w+ (?:% 4|\* 4|/ 4)\b", "a stack packed in a number: {0}", once=True)
    each(6, r"0x1_0000_0000 \*|[\w.)]+ [%/] 0x1_0000_0000|\b\w+ / 4294967296", "two numbers packed in one", once=True)
    each(6, r"=> \d \+ \w+\(|\bflag\([^;]*\) \+", "flags packed in a number", once=True)
    each(6, r"\b\w+\[\w+\.\.[^\]]*\]|\b\w+\[\.\.\w+\]|\b\w+\[[^\]]+\.\.\w+[^\]]*\]", "a part of a slice by its places: {0}", once=True)
    packers = [f.name for f in FUNCTIONS if re.fullmatch(r"[^;{}]*0x1_0000_0000 \* [^;{}]*", f.body) and f.result == "u64"]
    each(6, r"(?<!fn )\b(?:%s)\(" % "|".join(packers), "two numbers packed in one: {0}..)", once=True)
    for s in STRUCTS:
        numbers = [n for n, t in s.fields if re.fullmatch(INT + r"|P[A-Z]\w+", t)]
        if len([n for n in numbers if re.fullmatch(PLACES, n)]) >= 2:
            find(6, s, "places kept as numbers: " + ", ".join(numbers))
        if any(t.endswith("[u8]") for _, t in s.fields) and numbers:
            find(6, s, "a slice with a place beside it")
    for c in CONSTANTS:
        if c.kind.startswith("["):
            find(6, c, "a table: %s" % c.kind)
    for e in ENUMS:
        for n, p in e.variants:
            if re.fullmatch(r"\((?:usize|u32)(?:, (?:usize|u32))+\)", p):
                find(6, e, "a part kept as numbers: %s%s" % (n, p))


# ---------------------------------------------------------------- 7

def point7():
    own = {e.name for e in ENUMS}
    flags = {e.name for e in ENUMS if not any(p for _, p in e.variants)} | {"bool"}
    picks = set()
    homes = {(g.file.crate, g.name) for g in FUNCTIONS}

    def picked(f, name, i):
        """The parameter i of the function that f calls: one of its own crate, if there is one of that name."""
        crates = [f.file.crate] if (f.file.crate, name) in homes else [c for c, n in homes if n == name]
        return (crates[0] if crates else "", name, i)
    for f in FUNCTIONS:
        for i, (n, t) in enumerate(p for p in f.params if "self" not in p[0]):
            uses = list(re.finditer(r"(?<![\w.])%s\b(?!\s*:)" % n, f.body))
            tested = [u for u in uses if re.search(r"(?:\bif !?|\bmatch )$", f.body[:u.start()])]
            others = [u for u in uses if u not in tested and not re.search(r"[(,]\s*$", f.body[:u.start()])]
            arms = r"\bmatch %s \{(?:\s*\w+(?:::\w+)+(?:\([^()]*\))? => [\w:.]+\([^{}]*\),)+\s*\}" % n
            if t == "bool" and tested and not others:
                find(7, f, "%s: %s only picks the way" % (n, t))
                picks.add((f.file.crate, f.name, i))
            elif t in own and tested and not others and re.search(arms, f.body):
                find(7, f, "%s: %s only picks a call" % (n, t))
                picks.add((f.file.crate, f.name, i))
            elif t in own and len(uses) == 1 and re.search(r"\bis_\w+\(%s, \w+::" % n, f.body):
                find(7, f, "%s: %s is only asked for one variant" % (n, t))
    before = None
    while picks != before:
        before = set(picks)
        for f in FUNCTIONS:
            named = {n: (i, t) for i, (n, t) in enumerate(p for p in f.params if "self" not in p[0]) if t in flags}
            for _, name, args, _ in calls(f):
                for i, a in enumerate(args):
                    if a in named and picked(f, name, i) in before:
                        find(7, f, "%s: %s is handed on to %s, where it picks" % (a, named[a][1], name))
                        picks.add((f.file.crate, f.name, named[a][0]))
    for f in FUNCTIONS:
        for at, name, args, shown in calls(f):
            fixed = [i for i, a in enumerate(args) if re.fullmatch(r"true|false|(?:%s)::\w+" % "|".join(flags), a)]
            if any(picked(f, name, i) in picks for i in fixed):
                find(7, f, "a way picked by a literal: %s(%s)" % (name, shown), f.start + at)
    each(7, r"\bfn\(", "a function as a value: {0}")


# ---------------------------------------------------------------- 8

EASY = re.compile(r"^(\S+) (?:\S+ )*= (search rules|omega arith|refl)$")


def point8():
    paths = sorted(glob.glob(os.path.join(ROOT, "crates/*/proofs/**/*.antt"), recursive=True))
    other = glob.glob(os.path.join(ROOT, "crates/*/specs/**/*.antt"), recursive=True)
    texts = {p: re.sub(r"(?m)(?<!\S)--[^\n]*", blank_match, open(p, encoding="utf-8").read()) for p in paths + other}
    word = re.compile(r"[^\s(){}\[\].;,@\"«»]+")
    cited = {p: collections.Counter(word.findall(t)) for p, t in texts.items()}
    total = sum(cited.values(), collections.Counter())
    tally = collections.Counter()
    for p in paths:
        answers = os.path.basename(p) == "Answers.antt"
        tally["Answers.antt files"] += answers
        lines = texts[p].split("\n")
        short = os.path.relpath(p, ROOT)
        for i, line in enumerate(lines):
            easy = EASY.match(line)
            if easy and not answers:
                tally["clauses of helper lemmas that are = %s" % easy.group(2)] += 1
            elif easy:
                tally["answers that are = %s" % easy.group(2)] += 1
                FOUND.append((8, short, i + 1, easy.group(1), "candidate: = " + easy.group(2)))
            m = re.match(r"(?:abbrev )?(?:pub )?([^\s:]+) : (.*)", line)
            if not m or line.startswith("use "):
                continue
            name = m.group(1)
            if m.group(2).startswith("goal."):
                tally["answers in them"] += answers
                continue
            tally["helper lemmas"] += 1
            # the lemma's own block: its statement and its clauses
            end = i + 1
            own = re.compile(r"(?:[ \t-]|$|unfolding\b|%s(?!\S))" % re.escape(name))
            while end < len(lines) and own.match(lines[end]):
                end += 1
            inside = word.findall("\n".join(lines[i:end])).count(name)
            if total[name] <= inside:
                tally["helper lemmas not cited elsewhere"] += 1
                FOUND.append((8, short, i + 1, name, "helper lemma not cited elsewhere"))
    return tally


def blank_match(m):
    return blank(m.group())


# ---------------------------------------------------------------- printing

def listed(rows):
    """The places in short form: crate/file: names."""
    names = collections.OrderedDict()
    if rows and rows[0][0] == 5:
        twice = collections.Counter(r[3] for r in rows)
        rows = [r if twice[r[3]] == 1 or " in " not in r[4] else r[:3] + (r[4].split(" in ")[0], r[4]) for r in rows]
        return ["%s: %s" % (r[3], re.search(r"(?:assumed in the ensures by |by )?\d+ functions", r[4]).group()) for r in rows]
    # of a pair of twins both stand in the list
    others = [re.search(r"(\S+) \((crates/\S+):(\d+)\)$", r[4]) for r in rows if r[0] == 2]
    rows = sorted(rows + [(2, m.group(2), int(m.group(3)), m.group(1), "") for m in others if m], key=lambda r: r[1:3])
    if others:
        rows = [r for i, r in enumerate(rows) if r[:4] not in {x[:4] for x in rows[:i]}]
    for _, path, _, full, _ in rows:
        short = re.sub(r"^crates/([^/]+)/(?:src|proofs)/", r"\1/", path)
        short = re.sub(r"\.(?:rt|antt)$", "", short)
        names.setdefault(short, collections.Counter())[full] += 1
    return ["%s: %s" % (k, ", ".join(n if c == 1 else "%s (%d)" % (n, c) for n, c in v.items())) for k, v in names.items()]


def main():
    signal.signal(signal.SIGPIPE, signal.SIG_DFL)
    picked = [int(a) for a in sys.argv[1:] if a.isdigit()] or list(TITLES)
    steps = {1: point1, 2: point2, 3: point3, 4: point4, 5: point5, 6: point6, 7: point7, 8: point8}
    tally = collections.Counter()
    for p in picked:
        tally = steps[p]() or tally
        rows = sorted((r for r in FOUND if r[0] == p), key=lambda r: r[1:3]) if p != 5 else [r for r in FOUND if r[0] == p]
        if "--list" in sys.argv:
            print("## %d. %s\n" % (p, TITLES[p]))
            print("\n".join(listed(rows)) + "\n")
        elif "--table" not in sys.argv:
            for r in rows:
                print("%d %s:%d %s  %s" % r)
    if "--list" in sys.argv:
        return
    print("\npoint  count  functions and types")
    for p in picked:
        rows = [r for r in FOUND if r[0] == p]
        print("%5d  %5d  %5d  %s" % (p, len(rows), len({(r[1], r[3]) for r in rows}), TITLES[p]))
    for name, n in tally.items():
        print("       %5d         8: %s" % (n, name))


main()
