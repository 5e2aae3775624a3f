#!/usr/bin/env python3
"""Brings the definitions and lemmas of this repository to the spelling of today's Rattle, after port.py: words in snake case.

usage: python3 tools/respell.py [FOLDER]     rewrites FOLDER/crates in place (default: here); run it once, right after port.py

A definition, lemma, field, constructor or ruleset of specs/ and proofs/ is respelled everywhere: `rowWidth` is row_width, `by-places` is by_places;
a lemma that stands in another one's `where`, or a fact of a `let`, in its file.
Functions, types, facts that begin with a capital, strings, inputs and outputs keep their names. In comments only what stands in backticks is turned.
Names that would fall together are told apart by the tables below. The old and the new names stand in respelled.txt; --pages FILE.. turns pages by it, within backticks, but for names that are so in some files alone, which have a third word.
"""
import os
import re
import sys

# Names that would fall together with another after the turn, and what they become.
APART = {
    "by-tag": "by_tag_rules",
    "child-of": "is_child_of",
    "noRoom": "has_no_room",
}
# Lemmas with the name of a definition: they get `_lem`.
APART.update({n: n.replace("-", "_") + "_lem" for n in """deep-at leaf-line split-table same-record on-marks table-point leaf-now record-at is-split split-in
rank-in given-points given-elements opened-mesh c-line p-line l-line""".split()})
# Lemmas that port.py spelled as a definition is spelled now. A path and a function of the same name keep theirs.
LEMMAS = {"same_row", "same_ends", "row_pushed", "row_from", "point_at", "marked_all", "cut_all"}
ROW_IN = {"closure": "row_in_both"}
# Two names that port.py gave one spelling: in these files it is the lemma, elsewhere the definition.
LEMMAS_IN = {
    "row_at": ["coarsen_theory/proofs/laws/%s.antt" % f for f in ("Judged", "Fresh", "Turn", "Moved", "Clauses")],
    "row_of": ["leaves/proofs/laws/Steps.antt"],
    "place_of": ["closure/proofs/laws/Judged.antt"],
}

TOKEN = re.compile(r"[^\s(){}\[\],;:.λ`\"|∷]+")
TOP = re.compile(r"((?:pub |abbrev |unfoldable )*)((?:[^\s:(){}.,]+ )+):(?: |$)")


def names(path):
    """The names that a proof file declares: of the top level and of modules in it, fields and constructors."""
    blocks = []  # the indentation of each open block, and whether it lists fields or constructors
    for line in open(path, encoding="utf-8"):
        code = line.strip()
        if not code or code.startswith("--"):
            continue
        depth = len(line) - len(line.lstrip())
        while blocks and depth <= blocks[-1][0]:
            blocks.pop()
        if depth != (blocks[-1][0] + 2 if blocks else 0):
            continue
        m = re.match(r"(?:pub )*(record|data|ruleset|module)\s+(?:pub )?(\S+)", code)
        if m:
            if m.group(1) != "ruleset":
                blocks.append((depth, m.group(1) != "module"))
            if m.group(1) != "module":
                yield m.group(2)
            continue
        m = TOP.match(code + " ")
        if m:
            yield from m.group(2).split()


def snake(name):
    if name[:1].isupper():
        return name
    return re.sub(r"(?<=[a-z0-9])([A-Z])", lambda m: "_" + m.group(1).lower(), name).replace("-", "_")


def files(root):
    for folder, dirs, found in os.walk(os.path.join(root, "crates")):
        dirs[:] = sorted(d for d in dirs if d not in ("out", "must-fail"))
        for f in sorted(found):
            if f.endswith((".rt", ".antt")):
                yield os.path.join(folder, f)


def table(root):
    own = {}
    for p in files(root):
        if p.endswith(".antt") and os.path.basename(p) not in ("Proof.antt", "Answers.antt", "Invariants.antt"):
            for n in names(p):
                if re.fullmatch(r"[A-Za-z0-9_'-]+", n) and snake(n) != n:
                    own[n] = snake(n)
    own.update({n: new for n, new in APART.items() if n in own})
    return own


def brought(text):
    """The names that a file brings from a library: they are not ours."""
    out = set()
    for m in re.finditer(r"^(?:ghost )?use (\S+?)\.\{([^}]*)\}", text, re.M):
        if not re.match(r"Rattle\.(?!std\b|core\b|io\b|libc\b)", m.group(1)):
            out.update(w.strip().split(" as ")[0] for w in m.group(2).split(","))
    return out


def local(text):
    """The names that a proof file declares in a `where` or by a `let`, where they are in the old spelling and the new is free."""
    found = re.findall(r"^ +(?:pub )?([^\s:(){}.,]+) : |\blet ([^\s:(){}.,]+) (?::|=) ", text, re.M)
    used = set(TOKEN.findall(text))
    return {n: snake(n) for pair in found for n in pair if re.fullmatch(r"[A-Za-z0-9_'-]+", n) and snake(n) != n and snake(n) not in used}


def turn(text, own, path, antt, kept=frozenset()):
    crate = path.split(os.sep)[0]
    own = (local(text) | own) if antt else own

    def word(m, line):
        w = m.group(0)
        before, after = line[: m.start()], line[m.end() :]
        if w in kept:
            return w
        if w == "row-in" and not before.endswith(".") and crate in ROW_IN:
            return ROW_IN[crate]
        if w == "row-in" and before.endswith("."):
            return ROW_IN.get(crate, "row_in")
        if w == "row-in":
            return "row_in_lem"
        if w in LEMMAS_IN and path in LEMMAS_IN[w] and not before.endswith("."):
            return w + "_lem"
        if antt and w in LEMMAS and not before.endswith((".", " as ")) and not after.startswith("."):
            return w + "_lem"
        return own.get(w, w)

    def one(line):
        return TOKEN.sub(lambda m: word(m, line), line)

    out = []
    for line in text.split("\n"):
        code, mark, said = cut(line, "--" if antt else "//")
        said = re.sub(r"`[^`]*`", lambda m: one(m.group(0)), said)
        out.append((one(code) if code.strip() else code) + mark + said)
    return "\n".join(out)


def cut(line, mark):
    """Code, the mark of a comment, and the comment."""
    m = re.search(r"(^|\s)" + mark, line)
    if not m:
        return line, "", ""
    return line[: m.end() - len(mark)], mark, line[m.end() :]


def main():
    words = sys.argv[1:]
    if words[:1] == ["--pages"]:
        own = {}
        for line in open(os.path.join(os.path.dirname(os.path.abspath(__file__)), "respelled.txt"), encoding="utf-8"):
            old, new, *files_alone = line.split()
            if not files_alone:
                own[old] = new
        for p in words[1:]:
            t = open(p, encoding="utf-8").read()
            open(p, "w", encoding="utf-8").write(re.sub(r"`[^`\n]*`", lambda m: TOKEN.sub(lambda w: own.get(w.group(0), w.group(0)), m.group(0)), t))
        return
    root = words[0] if words else "."
    own = table(root)
    for p in files(root):
        t = open(p, encoding="utf-8").read()
        n = turn(t, own, os.path.relpath(p, os.path.join(root, "crates")), p.endswith(".antt"), brought(t))
        if n != t:
            open(p, "w", encoding="utf-8").write(n)
    for old in sorted(own):
        print(old, own[old])


main()
