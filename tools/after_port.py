#!/usr/bin/env python3
"""After the kit's port.py: this repository's own definitions and lemmas get the kit's spelling, words in snake case.

leastFirst becomes least_first. A dash in the name of a lemma stays: it joins the parts of the name, as in the kit's own
lemmas, and stands again where port.py made an underscore of it, since a definition may have that name. Types, facts and
modules keep their camel case, functions of src/ their names, and so do the goals that the check names. Run it on what
port.py left, before that is committed: the dashes are read from the last commit. The short names of modules that before_port.py gave a dash get their underscore back; where a definition in the file
has that name, '_reads' is added.

usage, at the top of the repository: python3 tools/after_port.py            turns crates/, README.md and docs/
                                     python3 tools/after_port.py --list     prints each crate's names, old and new
                                     python3 tools/after_port.py --clashes  prints names that would fall together
"""

import os
import re
import subprocess
import sys
from collections import defaultdict

NAME = r"[A-Za-z_0-9'\u2032\u2080-\u2089\u0370-\u03ff-]+"
DOT = re.compile(r"[.\u00b7]$")
TOKEN = re.compile(rf"(?<![A-Za-z_0-9'\u2032\u2080-\u2089\u0370-\u03ff\u25cc-]){NAME}")
DECLARED = re.compile(rf"^(?:  )?(?:(?:abbrev|unfoldable) )?(?:pub )?({NAME})(?: \{{[^}}]*\}})* :(?: |$)")
FIELD = re.compile(rf"^  pub ({NAME}) :(?: |$)")
OWN_USE = re.compile(r"^\s*(?:ghost )?use Rattle[.\u00b7](\w+)")
LIBRARY_USE = re.compile(r"^\s*(?:ghost )?(?:pub )?use ([\w.\u00b7]+?)\.\{([^}]*)\}")
ALIAS = re.compile(rf"^\s*use (\S+) as ({NAME})$")


def snake(name):
    """The new spelling of a name, or the name where it has one."""
    if not re.match(r"[a-z]", name):
        return name
    return re.sub(r"(?<=[a-z0-9])(?=[A-Z])", "_", name).lower() if re.search(r"[A-Z]", name) else name


def crates():
    return sorted(c for c in os.listdir("crates") if os.path.isdir(os.path.join("crates", c, "src")) or os.path.isdir(os.path.join("crates", c, "specs")))


def files(crate, ends):
    for folder, dirs, names in os.walk(os.path.join("crates", crate)):
        dirs[:] = sorted(d for d in dirs if d != "out")
        for name in sorted(names):
            if name.endswith(ends):
                yield os.path.join(folder, name)


def read(path):
    with open(path, encoding="utf-8") as f:
        return f.read()


def is_walk(path):
    """A function's own proof."""
    return os.path.basename(path) in ("Proof.antt", "Answers.antt", "Invariants.antt") and "/proofs/" in path


def code(line):
    """A line's code and its comment."""
    m = re.search(r"(?:^|(?<=\s))--(?=\s|$)", line)
    return (line[: m.start()], line[m.start() :]) if m else (line, "")


def before(path):
    """A file as it was before port.py."""
    r = subprocess.run(["git", "show", "HEAD:" + path], capture_output=True)
    return r.stdout.decode() if r.returncode == 0 else ""


def declared(text):
    """The names that a file of specs/ or proofs/ declares."""
    for line in text.split("\n"):
        it = code(line)[0]
        m = FIELD.match(it) or DECLARED.match(it)
        if m and not it.startswith("   ") and not re.search(r": (?:tie|goal)\.", it):
            yield m[1]


def own_names():
    """Per crate the names with a new spelling: those of definitions and lemmas that other files see, and per file its own."""
    shared, local = {}, {}
    for crate in crates():
        shared[crate] = {}
        for path in files(crate, ".antt"):
            into = local.setdefault(path, {}) if is_walk(path) else shared[crate]
            now = set(declared(read(path)))
            for name in now:
                if snake(name) != name:
                    into[name] = snake(name)
            if is_walk(path):
                continue
            for name in declared(before(path)):
                turned = name.replace("-", "_")
                if turned != name and turned in now and name not in now:
                    into[turned] = snake(name)
    return shared, local


def dependencies():
    """Which crates each crate stands on, itself among them."""
    on = {}
    for line in read("crates.txt").split("\n"):
        if line and not line.startswith("#"):
            name, _, deps = line.partition(":")
            on[name.split()[0]] = [name.split()[0]] + deps.split()
    return on


def library_names(text):
    """The names that a file brings in from the kit's libraries."""
    names = set()
    for line in text.split("\n"):
        m = LIBRARY_USE.match(code(line)[0])
        own = OWN_USE.match(line)
        if m and not (own and own[1] in OWN):
            names |= {n.split(" as ")[-1].strip() for n in m[2].split(",")}
    return names


def table_for(path, crate, shared, local, on):
    table = {}
    for dep in on.get(crate, [crate]):
        table.update(shared.get(dep, {}))
    table.update(local.get(path, {}))
    for name in library_names(read(path)):
        table.pop(name, None)
    taken = set(table.values()) & {table.get(w, "") for w in TOKEN.findall(read(path))}
    for line in read(path).split("\n"):
        m = ALIAS.match(line)
        if m and "-" in m[2] and m[1].split(".")[-1] in ("Reads", "Post"):
            new = m[2].replace("-", "_")
            table[m[2]] = new + "_reads" if new in taken else new
    return table


def new_of(m, table):
    """The new spelling at a place: a part of a path or a field is no lemma, so no dash goes there."""
    new = table.get(m[0], m[0])
    return m[0] if "-" in new and DOT.search(m.string[: m.start()]) else new


def turned_antt(text, table):
    out = []
    for line in text.split("\n"):
        body, comment = code(line)
        body = TOKEN.sub(lambda m: new_of(m, table), body)
        comment = TOKEN.sub(lambda m: table.get(m[0], m[0]) if re.search("[A-Z]", m[0]) else m[0], comment)
        out.append(body + comment)
    return "\n".join(out)


def turned_rt(text, table):
    """Of a source only what the prover reads: names in camel case anywhere, the others in lines that bring names in."""
    out = []
    for line in text.split("\n"):
        ghost = line.lstrip().startswith("ghost use")
        out.append(TOKEN.sub(lambda m: new_of(m, table) if ghost or re.search("[A-Z]", m[0]) else m[0], line))
    return "\n".join(out)


def turned_page(text, table):
    """Of a page names in camel case anywhere, the others between backquotes."""

    def quoted(m):
        return TOKEN.sub(lambda t: table.get(t[0], t[0]), m[0])

    text = re.sub(r"`[^`\n]+`", quoted, text)
    return TOKEN.sub(lambda t: table.get(t[0], t[0]) if re.search("[A-Z]", t[0]) else t[0], text)


def write(path, text):
    if text != read(path):
        with open(path, "w", encoding="utf-8") as f:
            f.write(text)


def clashes(shared, local, on):
    """Names that would fall together in a file."""
    for crate in crates():
        for path in files(crate, ".antt"):
            text = read(path)
            table = table_for(path, crate, shared, local, on)
            body = "\n".join(code(line)[0] for line in text.split("\n"))
            goes = defaultdict(set)
            for m in TOKEN.finditer(body):
                if not DOT.search(body[: m.start()][-1:]):
                    goes[new_of(m, table)].add(m[0])
            for new, olds in sorted(goes.items()):
                if len(olds) > 1:
                    print(f"{path}: {new} <- {' '.join(sorted(olds))}")


def main():
    global OWN
    OWN = set(crates())
    shared, local = own_names()
    on = dependencies()
    if "--list" in sys.argv:
        for crate in crates():
            if shared[crate]:
                print(f"{crate}: " + ", ".join(f"{a} {b}" for a, b in sorted(shared[crate].items())))
        return
    if "--clashes" in sys.argv:
        clashes(shared, local, on)
        return
    todo = []
    for crate in crates():
        for path in files(crate, (".antt", ".rt")):
            table = table_for(path, crate, shared, local, on)
            turn = turned_antt if path.endswith(".antt") else turned_rt
            todo.append((path, turn(read(path), table)))
    # port.py turns neither edits nor pages, so their names are those of before it
    everything = {n: snake(n) for crate in crates() for path in files(crate, ".antt") if not is_walk(path) for n in declared(before(path))}
    for crate in crates():
        for path in files(crate, ".edit"):
            todo.append((path, turned_rt(read(path), everything)))
    pages = ["README.md"] + [os.path.join("docs", p) for p in sorted(os.listdir("docs")) if p.endswith(".md")]
    for path in pages:
        todo.append((path, turned_page(read(path), everything)))
    for path, text in todo:
        write(path, text)


main()
