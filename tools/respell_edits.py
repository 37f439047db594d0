#!/usr/bin/env python3
"""Brings the must-fail edits to the spelling of today's Rattle: each old and new text is turned by the rules that turned the sources.

usage: python3 tools/respell_edits.py [--dry] [COMMIT]

COMMIT has the edits and the sources as they were (71f92a1, as docs/PORT.md has it); the sources that they are for are those of the folder. Written are the edits
whose texts turn; a text that doesn't stand exactly once in its file is printed. Words of the older library came from several modules, each with an import of its
own, and now come by one line from std's Prelude: a word that an edit added to one of those imports it now adds to that line. TEXTS has what no rule gives. Run once: a
later run with no --dry undoes what was changed by hand since.
"""
import os
import re
import subprocess
import sys

LIBRARY = re.compile(r"^use (?:Prim\.Native\.Nat|mathlib\.Core\.\w+|lib\.\w+)\.\{(.*)\}$")
WORDS = {"getD": "get_or", "negℤ": "neg_ℤ", "needs": "rules"}
IDENT = re.compile(r"[^\W\d][\w']*(?:-[^\W\d][\w']*)*")
CAMEL = re.compile(r"^[a-z][a-z0-9']*[A-Z]")
# what ends the application that a projection belongs to
STOPS = {"=", "≡", "≤", "<", "→", "×", "⊎", "+", "-", "*", "/", "%", "∷", "++", ":", ";", ",", "in", "let", "plus", "along", "less"}
PRELUDE = "use Rattle.std.specs.Prelude.{ℕ,"
# by edit and old text, as they were: the file and the texts of today, or none where the file of today has nothing of the kind
WORKSHEET, COLUMN = "proofs/worksheet/Proof.antt", "proofs/column/Answers.antt"
TEXTS = {
    ("rules/yellow_in_mode_two", "use lib.Dec.{eqb}"): ("specs/Rules.antt", ", eqb}", ", ltb}"),
    # a goal more, which Rattle now answers itself
    ("entry_rules/clearance_one_short", "    tie.close (tie.spec cast-result cast-result-2 add-result cast-result-3 returns returns-2)"): None,
    ("form/refused_shows_lines", "    let lines = pick-not _ _ _ _ faulty (c .zero-lines .ensures) in"): (
        WORKSHEET,
        "    let lines = pick_not _ _ _ _ faulty c.zero-lines.ensures in",
        "    let lines = pick_not _ _ _ _ faulty c.lines_of2.ensures in",
    ),
    ("scaled/bus_first_column", "ap (λ (n : ℕ). placed 4 n 10)"): (COLUMN, "ap (λ (n : ℕ). placed 4 n 10)", "ap (λ (n : ℕ). placed 5 n 10)"),
    ("scaled/bus_first_column", "column-to Bus (λ (k : ℕ). placed 4 (k - 10) 10)"): (
        COLUMN,
        "column_to Bus (λ (k : ℕ). placed 4 (k - 10) 10)",
        "column_to Bus (λ (k : ℕ). placed 5 (k - 10) 10)",
    ),
}


def parts(text):
    """The texts between spaces and brackets, with what is in brackets as one part."""
    out, at = [], 0
    while at < len(text):
        c = text[at]
        if c.isspace():
            at += 1
            continue
        start, deep = at, 0
        while at < len(text) and (deep or not text[at].isspace()):
            deep += text[at] in "({["
            deep -= text[at] in ")}]"
            at += 1
        out.append((start, at))
    return out


def one_projection(text):
    """Whether text is one name, or what is in one pair of brackets, and projections of it."""
    ps = parts(text)
    return len(ps) == 1 and re.search(r"^[\w'].*\.\w+$|\)(?:\.\w+)+$", text) is not None


def tight(text):
    """`p .mode` becomes `p.mode`, and `f x .mode` becomes `(f x).mode`, first inside brackets."""
    out, at = "", 0
    while at < len(text):
        if text[at] in "({[":
            deep, end = 0, at
            while end < len(text):
                deep += text[end] in "({["
                deep -= text[end] in ")}]"
                if not deep:
                    break
                end += 1
            if end == len(text):
                out += text[at] + tight(text[at + 1:])
                at = end
                continue
            inner = tight(text[at + 1: end])
            if text[at] == "(" and " ." in text[at:end] and one_projection(inner):
                out += inner
            else:
                out += text[at] + inner + text[end]
            at = end + 1
        else:
            out += text[at]
            at += 1
    while True:
        m = re.search(r"(?<=\S) \.(\w+)", out)
        if not m:
            return out
        head = out[: m.start()]
        ps = parts(head)
        k = len(ps)
        while k and head[ps[k - 1][0]: ps[k - 1][1]] not in STOPS and not head[ps[k - 1][0]: ps[k - 1][1]].endswith((".", ";", ",")):
            k -= 1
        start = ps[k][0]
        body = head[start:]
        if len(ps) - k > 1:
            body = f"({body})"
        out = head[:start] + body + "." + m.group(1) + out[m.end():]


def snake(word):
    if word in WORDS:
        return WORDS[word]
    return re.sub(r"([a-z0-9'])([A-Z])", lambda m: m.group(1) + "_" + m.group(2).lower(), word) if CAMEL.match(word) else word


def spelled(text):
    """A line of a definition."""
    text = text.replace("«", "").replace("»", "").replace("′", "'")
    text = re.sub(r"Rattle·(\w+)(?:·(specs|proofs)\.\2|\.(specs|proofs))", lambda m: f"Rattle.{m.group(1)}.{m.group(2) or m.group(3)}", text)
    text = text.replace("the-variants", "TheVariants")
    text = re.sub(r"(?<![\w◌])_([^\s_,{}()]+)_(?!\w)", r"◌\1◌", text)
    cut = re.split(r'("[^"]*")', text)
    text = "".join(c if i % 2 else IDENT.sub(lambda m: snake(m.group(0)), c) for i, c in enumerate(cut))
    return tight(text) if not LIBRARY.match(text) and not text.startswith("use ") else text


def lines_of(text):
    """An edit's comments, and its pairs: the file, whether a line of the edit names it there, and both texts."""
    notes, pairs, file, named, old = [], [], "", False, None
    for line in text.split("\n"):
        if line.startswith("file: "):
            file, named = line[6:], True
        elif line.startswith("old: "):
            old = line[5:]
        elif line.startswith("new:"):
            pairs.append((file, named, old, line[5:]))
            named = False
        elif line:
            notes.append(line)
    return notes, pairs


def show(commit, path):
    return subprocess.run(["git", "show", f"{commit}:{path}"], capture_output=True, text=True, check=True).stdout


def names(line):
    return [snake(re.sub(r"^_(.+)_$", r"◌\1◌", w)) for w in LIBRARY.match(line).group(1).split(", ")]


def turned(commit, path):
    label = path.split("/")[1] + "/" + path.split("/")[3][: -len(".edit")]
    notes, pairs = lines_of(show(commit, path))
    out, at = [], {}
    for file, named, old, new in pairs:
        if (label, old) in TEXTS:
            if TEXTS[label, old]:
                file, old, new = TEXTS[label, old]
                out.append((file, named, old, new))
        elif LIBRARY.match(old):
            added = [w for w in names(new) if w not in names(old)]
            if file not in at:
                at[file] = len(out)
                out.append((file, named, PRELUDE, PRELUDE))
            k = at[file]
            out[k] = (*out[k][:3], out[k][3] + "".join(f" {w}," for w in added))
        elif file.endswith(".rt"):
            out.append((file, named, old, new))
        else:
            out.append((file, named, spelled(old), spelled(new)))
    text = "\n".join(notes) + "\n"
    for file, named, old, new in out:
        text += (f"file: {file}\n" if named else "") + f"old: {old}\n" + (f"new: {new}\n" if new else "new:\n")
    return text, out


def main():
    words = [w for w in sys.argv[1:] if not w.startswith("--")]
    commit = words[0] if words else "71f92a1"
    listed = subprocess.run(["git", "ls-tree", "-r", "--name-only", commit, "crates"], capture_output=True, text=True, check=True).stdout.split()
    stand = total = 0
    for path in listed:
        if not path.endswith(".edit"):
            continue
        total += 1
        text, pairs = turned(commit, path)
        now, good = {}, True
        for file, _, old, new in pairs:
            at = os.path.join(path.split("/must-fail/")[0], file)
            if at not in now:
                now[at] = ""
                if os.path.isfile(at):
                    with open(at, encoding="utf-8") as f:
                        now[at] = f.read()
            n = now[at].count(old)
            if n != 1:
                good = False
                print(f"{path}: stands {n} times in {file}: {old}")
            now[at] = now[at].replace(old, new)
        stand += good
        with open(path, encoding="utf-8") as f:
            before = f.read()
        if text != before and "--dry" not in sys.argv:
            with open(path, "w", encoding="utf-8") as f:
                f.write(text)
    print(f"{stand} of {total} edits have texts that stand once")


if __name__ == "__main__":
    main()
