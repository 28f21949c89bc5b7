#!/usr/bin/env python3
"""Spells the repository's own names in snake case, as `kind-of` to `kind_of`.

usage: snake_names.py [--check]     at the top of the repository; --check writes nothing

What is turned: names with a dash that specs/ and proofs/ declare (definitions, lemmas, fields, constructors, names of `let`,
binders and λ), wherever .antt files, ghost parts of .rt files, must-fail edits and code spans of .md files have them. What stays: names that
a file imports from the kit's libraries, names that the check makes (goals, and facts behind `c.`), comments, and all of Rust.
A name whose new spelling is in use already is reported, and nothing is written.
"""

import os
import re
import sys

DASHED = re.compile(r"[^\W\d]\w*(?:-\w+)+'*")
TOKEN = re.compile(r"--[^\n]*|\"[^\"\n]*\"|[^\s(){}.;,@\"«»]+", re.M)
MADE = re.compile(r"(?:loop|invariant|returns|returns?-.*|if|in|index|overflow|bounds|nonzero|prove|slice_bounds)-.*|.*-(?:requires(?:-\d+)?|preserved|init|smaller|ensures|item|index|test|false|true|invariant)(?:-.*)?$")
# the library has these words in snake case
OTHERS = {"bit-and": "bit_of_and", "bit-or": "bit_of_or"}
GHOST = re.compile(r"ghost\s+use\b[^;]*;|#\[tactic\([^\]]*\]|(?:requires|ensures)\s*\*?\s*(?:\w+\s*)?\{|ghost\s+\w+\s*[:=]\s*\{|ghost\s+invariant\s*\{")


def files(*ends):
    for top in ("crates", "docs", "README.md"):
        if os.path.isfile(top):
            if top.endswith(ends):
                yield top
            continue
        for folder, dirs, names in os.walk(top):
            dirs[:] = sorted(d for d in dirs if d not in ("out", "target", ".git"))
            for name in sorted(names):
                if name.endswith(ends):
                    yield os.path.join(folder, name)


def read(path):
    with open(path, encoding="utf-8") as f:
        return f.read()


def declared(text):
    """Dashed names that a text declares: signatures, fields, constructors, `let`, binders and the left sides of clauses."""
    code = re.sub(r"--[^\n]*", "", text)
    code = re.sub(r"(?m)^use [^\n]*$", "", code)
    found = set()
    for m in re.finditer(r"(?m)^ *((?:(?:abbrev|pub|data|record|unfoldable|module|ruleset) )*)([^\n:=]*?) *(?:\{[^{}\n]*\} *)*(?:\([^()\n]*\) *)*:(?= |$)", code):
        if not re.search(r":\s*goal\.", m.group(0) + code[m.end():m.end() + 8]):
            found.update(m.group(2).split())
    for m in re.finditer(r"\blet ([^\s:=]+)", code):
        found.add(m.group(1))
    for m in re.finditer(r"[({]([^(){}:→=.]+) : ", code):
        found.update(m.group(1).split())
    for m in re.finditer(r"λ ([^.λ]*?)\. ", code):
        found.update(re.sub(r"[():]", " ", m.group(1)).split())
    return {n for n in found if DASHED.fullmatch(n)}


def imported(text):
    """Names that a text imports from the kit's libraries."""
    found = set()
    for m in re.finditer(r"(?m)\buse ([\w.']+)\.\{([^}]*)\}", text):
        if re.match(r"(?:Rattle\.(?:std|core)\b|lib\b|mathlib\b|Prim\b)", m.group(1)):
            found.update(re.split(r"[,\s]+", m.group(2)))
    return found


def spelled(name):
    return OTHERS.get(name, name.replace("-", "_"))


def turned(text, own, keep):
    def swap(m):
        word = m.group(0)
        if word.startswith("--") or word.startswith('"'):
            return word
        if word not in own or word in keep:
            return word
        head = re.search(r"(?:^|[\s(){};,])([\w.'«»-]*)\.$", text[max(0, m.start() - 60):m.start()])
        if head and re.fullmatch(r"(?:c|l|g|goal)", head.group(1)):
            return word
        return spelled(word)

    return TOKEN.sub(swap, text)


def ghost_parts(text):
    """The spans of a .rt text that hold antt."""
    at = 0
    while True:
        m = GHOST.search(text, at)
        if not m:
            return
        end = m.end()
        if m.group(0).endswith("{"):
            depth = 1
            while depth:
                depth += {"{": 1, "}": -1}.get(text[end], 0)
                end += 1
        yield m.start(), end
        at = end


def main():
    check = "--check" in sys.argv
    antt = {p: read(p) for p in files(".antt")}
    rust = {p: read(p) for p in files(".rt")}
    own = set()
    for path, text in antt.items():
        answers = re.search(r"/proofs/.*/", path)
        own |= {n for n in declared(text) if not answers or not MADE.fullmatch(n)}
    for path, text in rust.items():
        for a, b in ghost_parts(text):
            own |= declared(text[a:b])
    libraries = set()
    for text in antt.values():
        libraries |= imported(text)
    clash = []
    used = set()
    for text in list(antt.values()) + [t[a:b] for t in rust.values() for a, b in ghost_parts(t)]:
        used |= set(TOKEN.findall(re.sub(r"(?m)\buse [\w.']+", "", text)))
    items = set()
    for text in rust.values():
        items |= set(re.findall(r"\b(?:fn|struct|enum|const|mod) (\w+)", text))
    for name in sorted(own):
        new = spelled(name)
        if new in used or new in libraries:
            clash.append(f"in use already: {name}")
        elif new in items:
            print(f"look: {name} is spelled as a Rust item now")
        if name in libraries:
            print(f"look: {name} is a library's name too, and stays in the files that import it")
    print(f"{len(own)} names")
    if clash:
        print("\n".join(clash))
    if check:
        print(" ".join(sorted(own)))
        return
    if clash:
        raise SystemExit(1)
    for path, text in antt.items():
        write(path, text, turned(text, own, imported(text)))
    for path, text in rust.items():
        keep, new, last = imported(text), [], 0
        for a, b in ghost_parts(text):
            new += [text[last:a], turned(text[a:b], own, keep)]
            last = b
        write(path, text, "".join(new) + text[last:])
    for path in files(".edit"):
        text = read(path)
        write(path, text, "".join(line if line.startswith("file:") else turned(line, own, set()) for line in text.splitlines(True)))
    for path in files(".md"):
        text = read(path)
        write(path, text, re.sub(r"`([^`\n]+)`", lambda m: f"`{turned(m.group(1), own, set())}`", text))


def write(path, old, new):
    if old != new:
        with open(path, "w", encoding="utf-8") as f:
            f.write(new)


if __name__ == "__main__":
    main()
