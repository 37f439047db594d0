#!/usr/bin/env python3
"""Brings the names of definitions and lemmas to the spelling of today's Rattle: words in snake case, facts in upper camel case.

usage: python3 tools/respell.py [ROOT] [--dry]

`oneMore` becomes `one_more`, `green-by-line-17` becomes `green_by_line_17`; a definition whose value is a `Type` begins with a capital.
Names of Rust functions, of the library, of generated goals, strings, inputs and outputs stay. Run once, after the kit's port.py. What falls
together in one file is printed: it is read before anything else is done.
"""
import os
import re
import sys

FACTS = {"refusesIn": "RefusesIn", "oneNumber": "has_one_number"}
IDENT = re.compile(r"[^\s(){}\[\].,;\"«»`]+")
CAMEL = re.compile(r"^[a-z][a-z0-9_']*[A-Z]")
DEF = re.compile(r"^\s*(?:(?:abbrev|unfoldable|pub|data|record|ruleset)\s+)*([^\s:(){}\[\].,;]+)(?:\s+[({][^=]*)?\s+:(?:\s|$)")
LET = re.compile(r"\blet ([^\s:(){}\[\].,;]+) (?::|=)")


def snake(word):
    if word in FACTS:
        return FACTS[word]
    out = re.sub(r"([a-z0-9'])([A-Z])", lambda m: m.group(1) + "_" + m.group(2).lower(), word)
    return out


def files(root, ends):
    for folder, dirs, names in os.walk(os.path.join(root, "crates")):
        dirs[:] = sorted(d for d in dirs if d != "out")
        for n in sorted(names):
            if n.endswith(ends):
                yield os.path.join(folder, n)


def own_lemma_file(path):
    """A file of lemmas or definitions, and not the proof of one function."""
    parts = path.split("/crates/", 1)[1].split("/")
    return len(parts) == 3


def text(path):
    with open(path, encoding="utf-8") as f:
        return f.read()


def dashed(root):
    """The dash names that the repository defines: in its lemma files, and beside the goals of a proof file."""
    found = set()
    for p in files(root, ".antt"):
        own = own_lemma_file(p)
        for line in text(p).split("\n"):
            if line.lstrip().startswith("--"):
                continue
            m = DEF.match(line) or re.match(r"^\s*pub (?:ruleset )?([^\s:(){}\[\].,;]+) =", line)
            if not m or "-" not in m.group(1) or m.group(1) in ("--", "->"):
                continue
            name = m.group(1)
            if not re.match(r"^[A-Za-z][\w'-]*$", name):
                continue
            if own or (not re.search(r":\s+tie\.", line) and not name.endswith("-spec")):
                found.add(name)
    return found


def aliases(root):
    found = set()
    for p in files(root, ".antt"):
        found.update(n for n in re.findall(r"^use \S+ as (\S+)$", text(p), re.M) if "-" in n)
    return found


TAKEN = set()


def lemma(token):
    """A lemma that would have its function's name gets `_lem`."""
    name = snake(token).replace("-", "_")
    return name + "_lem" if name in TAKEN else name


def renamed(token, before, dashes, in_path):
    """`before` is the character ahead of the token; in_path says that it stands in a path of the repository's."""
    if before == "." and not in_path:
        return snake(token) if CAMEL.match(token) and "-" not in token else token
    if token in dashes:
        return lemma(token)
    if CAMEL.match(token):
        return "-".join(snake(x) for x in token.split("-"))
    return token


def turn(line, dashes, code):
    out, at = [], 0
    for m in IDENT.finditer(line):
        t = m.group(0)
        before = line[m.start() - 1] if m.start() else ""
        head = re.search(r"[^\s(){}\[\],;\"«»`]*$", line[: m.start()]).group(0)
        core = t.rstrip("?:!") if not code else t
        tail = t[len(core):]
        new = renamed(core, before, dashes, head.startswith("Rattle.")) + tail
        out.append(line[at: m.start()] + new)
        at = m.end()
    out.append(line[at:])
    return "".join(out)


def comment_free(line, mark):
    i = line.find(mark)
    return (line, "") if i < 0 else (line[:i], line[i:])


def main():
    words = [w for w in sys.argv[1:] if not w.startswith("--")]
    dry = "--dry" in sys.argv
    root = words[0] if words else "."
    dashes = dashed(root) | aliases(root)
    known = set()
    for p in files(root, ".antt"):
        for line in text(p).split("\n"):
            m = DEF.match(line) or LET.search(line)
            if m and CAMEL.match(m.group(1)):
                known.add(m.group(1))
    for p in files(root, ".antt"):
        for line in text(p).split("\n"):
            m = DEF.match(line)
            if m and "-" not in m.group(1) and not re.search(r":\s+tie\.", line):
                TAKEN.add(snake(m.group(1)))
    bad = 0
    changed = {}
    for p in files(root, (".antt", ".rt", ".edit")):
        old = text(p)
        rust = p.endswith((".rt", ".edit"))
        lines = []
        seen = {}
        for line in old.split("\n"):
            if p.endswith(".rt") or (p.endswith(".edit") and False):
                code, note = comment_free(line, "//")
                if '"' in code:
                    lines.append(line)
                    continue
            else:
                code, note = comment_free(line, "-- ")
            def fix(part, is_code):
                return turn_known(part, dashes, known) if rust or not is_code else turn(part, dashes, True)
            new = fix(code, True) + (turn_known(note, set(), known) if note else "")
            for m in IDENT.finditer(re.sub(r"Rattle\.\w+\.proofs\.\S*(Statement|Tie|Kinds|Reads)", "", code)):
                t = m.group(0)
                n = turn(t, dashes, True)
                if not rust:
                    seen.setdefault(n, set()).add(t)
            lines.append(new)
        for n, ts in seen.items():
            if len(ts) > 1:
                bad += 1
                print(f"falls together: {os.path.relpath(p, root)}: {n}: {', '.join(sorted(ts))}")
        new = "\n".join(lines)
        if new != old:
            changed[p] = new
    print(f"{len(changed)} files, {len(dashes)} dash names, {len(known)} camel names, {bad} fall together")
    if not dry:
        for p, t in changed.items():
            with open(p, "w", encoding="utf-8") as f:
                f.write(t)


def turn_known(line, dashes, known):
    """In Rust, edits and comments: only names that the repository is known to define."""
    out, at = [], 0
    for m in re.finditer(r"[A-Za-z][\w'-]*", line):
        t = m.group(0)
        before = line[m.start() - 1] if m.start() else ""
        new = t
        if t in dashes and before != ".":
            new = lemma(t)
        elif t in known:
            new = snake(t)
        out.append(line[at: m.start()] + new)
        at = m.end()
    out.append(line[at:])
    return "".join(out)


if __name__ == "__main__":
    main()
