#!/usr/bin/env python3
"""Lists places in crates/*/src that may be written in a plainer form, and counts them.

    tools/places.py            all points, the counts alone
    tools/places.py 1 3        these points, each place with its file and line

1 types of the shape of Option or Result, and a flag with a value beside it
2 functions that are alike but for types, sizes, constants and the names made of them
3 loops that count by hand, and loops over a range that only index with it
4 conversions, comparisons and copies written by hand
5 facts that stand in the contracts of three or more functions of a crate, and parameters that travel together
6 buffers with a length beside them, and arrays that go together
7 branches on a kind or a flag, each arm of which calls another function
8 proof files, by crate: files, lines, lemmas
"""
import collections
import pathlib
import re
import sys

ROOT = pathlib.Path(__file__).resolve().parent.parent
CRATES = sorted(p for p in (ROOT / "crates").iterdir() if (p / "src").is_dir())
FILES = [f for c in CRATES for f in sorted((c / "src").glob("**/*.rt"))]


def strip(text):
    return re.sub(r"//[^\n]*", lambda m: " " * len(m.group()), text)


def line(text, at):
    return text.count("\n", 0, at) + 1


def block(text, at):
    """The end of the brace block that opens at or after `at`."""
    depth = 0
    for i in range(text.index("{", at), len(text)):
        depth += {"{": 1, "}": -1}.get(text[i], 0)
        if depth == 0:
            return i + 1
    return len(text)


class Function:
    def __init__(self, file, text, start):
        self.file, self.line = file, line(text, start)
        self.name = re.match(r"fn (\w+)", text[start:]).group(1)
        opening = text.index("(", start)
        depth, i = 0, opening
        while True:
            depth += {"(": 1, ")": -1}.get(text[i], 0)
            i += 1
            if depth == 0:
                break
        self.params = [p.strip() for p in split(text[opening + 1 : i - 1]) if p.strip()]
        rest = text[i:]
        head = re.match(r"[^{;]*?(?=\n\s*(?:requires|ensures)\b|\{|;)", rest, re.S)
        self.result = head.group().replace("->", "").strip()
        at = i + head.end()
        self.clauses = []
        while True:
            m = re.match(r"\s*(requires|ensures)\s*\w*\s*(?=\{)", text[at:])
            if not m:
                break
            end = block(text, at)
            opened = text.index("{", at)
            self.clauses.append((m.group(1), " ".join(text[opened + 1 : end - 1].split())))
            at = end
        self.body = ""
        if re.match(r"\s*\{", text[at:]):
            self.body = text[text.index("{", at) : block(text, at)]


def split(text):
    parts, depth, last = [], 0, 0
    for i, c in enumerate(text.replace("=>", "==").replace("->", "--")):
        depth += {"(": 1, "[": 1, "{": 1, "<": 1, ")": -1, "]": -1, "}": -1, ">": -1}.get(c, 0)
        if c == "," and depth == 0:
            parts.append(text[last:i])
            last = i + 1
    return parts + [text[last:]]


def functions():
    for f in FILES:
        text = strip(f.read_text())
        for m in re.finditer(r"(?<![\w'])fn \w+", text):
            if text[m.start() - 1] not in " \n":
                continue
            yield Function(f, text, m.start())


def where(f, n):
    return f"{f.relative_to(ROOT)}:{n}"


def types():
    for f in FILES:
        text = strip(f.read_text())
        for m in re.finditer(r"(enum|struct) (\w+)[^\n;{(]*\{", text):
            inner = text[text.index("{", m.start()) + 1 : block(text, m.start()) - 1]
            inner = re.sub(r"#\[[^\]]*\]", "", inner)
            yield f, line(text, m.start()), m.group(1), m.group(2), [p.strip() for p in split(inner) if p.strip()]


GOOD = r"Is|Good|At|Go|Goes|Ready|Next|Count|Place|Laid|Samples|Some|Ok|Found"


def point1():
    for f, n, sort, name, parts in types():
        if sort == "enum":
            carrying = [p for p in parts if re.match(rf"(?:{GOOD})\b\s*[({{]", p)]
            if len(carrying) == 1 and len(parts) >= 2:
                yield where(f, n), f"enum {name}: {', '.join(p.split('(')[0].split('{')[0].strip() for p in parts)}"
        else:
            fields = [p.replace("pub ", "").replace("(crate)", "") for p in parts]
            flags = [p for p in fields if re.match(r"(present|checked|found|valid)\b", p)]
            if flags and len(fields) > 1:
                yield where(f, n), f"struct {name}: {'; '.join(fields)}"


TYPE = r"\b(?:u8|u16|u32|u64|usize|i16|i32|i64|f32|bool)\b"


def alike(text):
    text = re.sub(r"\b0x[0-9A-Fa-f_]+\b|\b\d[\d_]*(?:\.\d+)?\b", "N", text)
    text = re.sub(TYPE, "T", text)
    text = re.sub(r"\b(?:true|false)\b", "B", text)
    text = re.sub(r"\b(?:[A-Z][A-Za-z]*|\w+)::", "", text)
    text = re.sub(r"\b[A-Z][A-Z0-9_]+\b", "C", text)
    text = re.sub(r"\b[A-Z]\w*\b", "V", text)
    text = re.sub(r"\b\w*(?:short|pattern|word|long|hertz|gain|pack|level|number|band|text|data|float)\w*\b", "x", text)
    text = re.sub(r"\b\w*(?:16|32|64|two|three|four|eight)\w*\b", "x", text)
    return " ".join(text.split())


def point2():
    groups = collections.defaultdict(list)
    for g in functions():
        if g.body and len(g.body.split()) > 4:
            groups[(g.file.parts[-3], len(g.params), alike(g.body))].append(g)
    for (crate, _, _), group in groups.items():
        if len(group) > 1:
            for g in group:
                yield where(g.file, g.line), f"{crate}: {' '.join(x.name for x in group)}"


def point3():
    for f in FILES:
        text = strip(f.read_text())
        for m in re.finditer(r"\b(while|loop)\b(?! *\()[^\n]*\{", text):
            yield where(f, line(text, m.start())), " ".join(m.group().split())
        for m in re.finditer(r"for (\w+) in 0\.\.[^\n]*\{", text):
            inner = text[m.start() : block(text, m.start())]
            if re.search(rf"\[{m.group(1)}\b", inner):
                yield where(f, line(text, m.start())), " ".join(m.group().split())


def point4():
    for g in functions():
        body = " ".join(g.body.split())
        if re.search(r"_?rebuilt$|^same\w*$|^wides?t?$", g.name):
            yield where(g.file, g.line), f"{g.name}: by hand"
        elif re.fullmatch(r"\{ \w+ as \w+ \}", body):
            yield where(g.file, g.line), f"{g.name}: a cast"
        elif re.match(r"\{ match \*?\w+ \{", body):
            arms = [a for a in split(body[body.index("{", 1) + 1 : block(body, 1) - 1]) if a.strip()]
            values = [a.split("=>", 1)[1].strip() for a in arms if "=>" in a]
            plain = re.compile(r"[\w:.]+(\([a-z]*\))?")
            if len(values) == len(arms) and all(plain.fullmatch(v) for v in values):
                yield where(g.file, g.line), f"{g.name}: by cases"


def point5():
    facts = collections.defaultdict(dict)
    together = collections.defaultdict(dict)
    for g in functions():
        crate = g.file.parts[-3]
        for kind, clause in g.clauses:
            for part in re.split(r" × (?![^()]*\))", clause):
                part = part.strip()
                while part.startswith("(") and part.endswith(")") and part.count("(") == part.count(")"):
                    inner = part[1:-1]
                    depth = 0
                    if any((depth := depth + {"(": 1, ")": -1}.get(c, 0)) < 0 for c in inner):
                        break
                    part = inner.strip()
                if kind == "requires" or "≤" in part or "<" in part:
                    facts[(crate, part)][g.name] = where(g.file, g.line)
        names = [p for p in g.params if "self" not in p]
        for i in range(len(names)):
            for j in range(i + 1, len(names)):
                for k in range(j + 1, len(names)):
                    together[(crate, names[i], names[j], names[k])][g.name] = where(g.file, g.line)
    for (crate, fact), at in sorted(facts.items()):
        if len(at) >= 3:
            yield next(iter(at.values())), f"{crate}: `{fact}` in {' '.join(sorted(at))}"
    seen = set()
    for (crate, *names), at in sorted(together.items(), key=lambda x: -len(x[1])):
        users = frozenset(at)
        if len(at) >= 3 and not any(c == crate and users <= u for c, u in seen):
            seen.add((crate, users))
            yield next(iter(at.values())), f"{crate}: ({', '.join(names)}) in {' '.join(sorted(at))}"


def point6():
    for f, n, sort, name, parts in types():
        fields = [p.replace("pub ", "").replace("(crate)", "") for p in parts] if sort == "struct" else []
        arrays = [p for p in fields if re.search(r": \[", p)]
        lengths = [p for p in fields if re.match(r"(n|len|length|count|at): usize", p)]
        if arrays and lengths:
            yield where(f, n), f"struct {name}: {'; '.join(fields)}"
        elif len(arrays) > 1:
            yield where(f, n), f"struct {name}: {'; '.join(fields)}"
    for g in functions():
        buffers = [p for p in g.params if re.search(r": &(mut )?\[|: \[\w+; ", p)]
        lengths = [p for p in g.params if re.match(r"(n|len|size|count|came|end|at|to): usize$", p)]
        if buffers and lengths:
            yield where(g.file, g.line), f"{g.name}({', '.join(buffers + lengths)})"


def point7():
    for g in functions():
        body = " ".join(g.body.split())
        for m in re.finditer(r"match (\w*kind|\w*shape|which|k)\b \{", body):
            inner = body[m.start() : block(body, m.start())]
            calls = set(re.findall(r"=> (?:return )?(?:\w+\()?([\w:]+)\(", inner))
            if len(calls) >= 3:
                yield where(g.file, g.line), f"{g.name}: match {m.group(1)}, {len(calls)} calls"
        for p in g.params:
            m = re.match(r"(float|big|left|test|good|wide): bool$", p)
            if m:
                yield where(g.file, g.line), f"{g.name}({p})"


def point8():
    for c in CRATES:
        proofs = sorted((c / "proofs").glob("**/*.antt")) if (c / "proofs").is_dir() else []
        if proofs:
            texts = [p.read_text() for p in proofs]
            answers = sum(p.name == "Answers.antt" for p in proofs)
            invariants = sum(p.name == "Invariants.antt" for p in proofs)
            lines = sum(t.count("\n") for t in texts)
            yield c.name, f"{answers} answers, {invariants} invariants, {len(proofs) - answers - invariants} other files, {lines} lines"


POINTS = [point1, point2, point3, point4, point5, point6, point7, point8]


def main():
    asked = [int(a) for a in sys.argv[1:]]
    for k, point in enumerate(POINTS, 1):
        if asked and k not in asked:
            continue
        places = list(point())
        print(f"point {k}: {len(places)}")
        if asked:
            for at, said in places:
                print(f"  {at} {said}")


main()
