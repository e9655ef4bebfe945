#!/usr/bin/env python3
"""Brings the repository's own definitions, lemmas and fields to snake case: `maxRows` to `max_rows`, `leb-holds` to `leb_holds`.

usage: python3 tools/respell.py [--list]      at the top of the repository, once, after the kit's own script

What turns: each lower-case name that a file of specs/ or proofs/ declares, at the top, in a `module`, a `where` or a record. Where: in every
.antt file, in the clauses, ghost items and comments of every .rt file, and in the must-fail edits of these. What stays: Rust's names, the
names that the check makes (`Need-..`, `tie.`), and a name whose new spelling stands already beside it (KEPT says what it becomes instead).
"""
import os
import re
import sys

WORD = re.compile(r"[^\s(){}\[\].;,:@\"«»`|/]+")
DECL = re.compile(r"^[ \t]*(?:(?:abbrev|unfoldable|pub|private|ruleset|irreducible) )*([^\s(){}.;,:@\"«»`]+)(?: *(?:\{[^{}]*\}|\([^()]*\)))* :(?= |$)", re.M)
MADE = re.compile(r"^[ \t]*(?:(?:abbrev|pub) )*([^\s(){}.;,:@\"«»`]+) :\s+tie\.", re.M)
# A name that would meet another in some file gets this spelling.
OTHER = {
    "C-still": "cost_still",
    "at-least": "at_least_holds",
    "blockSize": "size_of_block",
    "colCoeffs": "column_coeffs",
    "costlessSteps": "steps_of_costless",
    "factorCoeffs": "all_factor_coeffs",
    "factorNumbers": "all_factor_numbers",
    "goOn": "go_on_with",
    "manyBy": "many_if",
    "notFinite": "non_finite",
    "of-int": "of_int_holds",
    "put-at": "put_at_holds",
    "row-in": "row_within",
    "start-at": "start_at_holds",
    "storeLong": "store_is_long",
    "values-of": "values_of_holds",
}
CLAUSE = re.compile(r"(?<![\w])(?:requires|ensures|ghost)\b")


def snake(name):
    parts = []
    for p in name.split("-"):
        p = re.sub(r"(?<=[a-z0-9])(?=[A-Z])", "_", p)
        p = re.sub(r"(?<=[A-Z])(?=[A-Z][a-z])", "_", p)
        parts.append(p.lower())
    return "_".join(parts)


def files(kind):
    for top, dirs, names in os.walk("crates"):
        dirs[:] = sorted(d for d in dirs if d != "out")
        for n in sorted(names):
            if n.endswith(kind):
                yield os.path.join(top, n)


def read(p):
    with open(p, encoding="utf-8") as f:
        return f.read()


def write(p, text):
    with open(p, "w", encoding="utf-8") as f:
        f.write(text)


def table():
    found = {}
    for p in files(".antt"):
        text = read(p)
        made = set(MADE.findall(text)) | {"invariant-loop", "decreases-loop"} if p.endswith("/Proof.antt") else set()
        for n in DECL.findall(text):
            if n in made or not re.match(r"[a-z]|[A-Z]\d?-", n) or "◌" in n or not re.fullmatch(r"[\w'-]+", n):
                continue
            if p.endswith("/Proof.antt") and n.endswith("-spec"):
                continue
            new = OTHER.get(n) or snake(n)
            if new != n:
                found.setdefault(n, new)
    # A definition `allWithin` and a lemma `all-within` about it fall together: the lemma is `all_within_holds`.
    for n in found:
        if "-" in n and any(found.get(o) == found[n] for o in found if "-" not in o):
            found[n] += "_holds"
    return found


USE = re.compile(r"\buse ([^\s;{]+)\.\{([^}]*)\}")


def turned(text, rows, stay=()):
    return WORD.sub(lambda m: m[0] if m[0] in stay else rows.get(m[0], m[0]), text)


FIELD = re.compile(r"^[ \t]+(?:pub )?([^\s(){}.;,:@\"«»`]+) :(?= |$)", re.M)


def behind(text, rows, fields):
    """In a walk through code, a name behind a dot that is no field of a record is a step's: it keeps its words."""
    def one(m):
        w = m[1]
        return "." + snake(w) if w in rows and w not in fields and rows[w] != snake(w) else m[0]

    return re.sub(r"\.([\w'-]+)", one, text)


def lent(text):
    """The names that a file imports from a library that isn't the repository's: they stay."""
    own = set(os.listdir("crates"))
    names = set()
    for module, items in USE.findall(text):
        parts = module.split(".")
        if parts[0] != "Rattle" or parts[1] not in own:
            names |= set(WORD.findall(items))
    return names


def spans(text):
    """The clauses, ghost items and comments of a .rt file, as pairs of places."""
    i, n = 0, len(text)
    while i < n:
        if text.startswith("//", i):
            e = text.find("\n", i)
            e = n if e < 0 else e
            yield i, e
            i = e
            continue
        if text[i] == '"':
            e = i + 1
            while e < n and text[e] != '"':
                e += 2 if text[e] == "\\" else 1
            i = e + 1
            continue
        m = re.compile(r"\b(requires|ensures|ghost)\b").match(text, i) if (i == 0 or not (text[i - 1].isalnum() or text[i - 1] == "_")) else None
        if m:
            semi, brace = text.find(";", i), text.find("{", i)
            if m[1] == "ghost" and re.match(r"ghost\s+use\b", text[i:]):
                e = semi + 1
            else:
                depth, e = 0, brace
                while e < n:
                    depth += {"{": 1, "}": -1}.get(text[e], 0)
                    e += 1
                    if not depth:
                        break
            yield i, e
            i = e
            continue
        i += 1


def rust(text, rows):
    out, at, stay = [], 0, lent(text)
    for a, b in spans(text):
        piece = text[a:b]
        out += [text[at:a], piece if piece.startswith("//") else turned(piece, rows, stay)]
        at = b
    return "".join(out + [text[at:]])


def main(argv):
    rows = table()
    news = {}
    for old, new in rows.items():
        news.setdefault(new, []).append(old)
    clash = []
    for new, olds in news.items():
        if len(olds) > 1:
            clash.append(f"{', '.join(olds)} fall together as {new}")
    words = {p: set(WORD.findall(read(p))) for p in list(files(".antt"))}
    for p, w in words.items():
        for old in w & set(rows):
            if rows[old] in w:
                clash.append(f"{p}: {old} meets {rows[old]}")
    for p in files(".rt"):
        text = read(p)
        ghost = set()
        for a, b in spans(text):
            if not text.startswith("//", a):
                ghost |= set(WORD.findall(text[a:b]))
        for old in ghost & set(rows):
            if rows[old] in ghost:
                clash.append(f"{p}: {old} meets {rows[old]}")
    if "--list" in argv:
        print("\n".join(clash))
        print(len(rows), "names,", len(clash), "clashes")
        return 0
    fields = set()
    for p in files(".antt"):
        for body in re.findall(r"^[^\n]*\brecord [^\n]* where\n((?:[ \t]+[^\n]*\n|\n)*)", read(p), re.M):
            fields |= set(FIELD.findall(body))
    for p in files(".antt"):
        text = read(p)
        walked = behind(text, rows, fields) if p.endswith("/Proof.antt") else text
        if (new := turned(walked, rows, lent(text))) != text:
            write(p, new)
    for p in files(".rt"):
        text = read(p)
        if (new := rust(text, rows)) != text:
            write(p, new)
    for p in files(".edit"):
        text = read(p)
        spec = re.search(r"^file: \S+\.antt$", text, re.M)
        lines = []
        for line in text.split("\n"):
            if re.match(r"(old|new): ", line) and (spec or re.search(r"\b(requires|ensures|ghost)\b", line)):
                line = turned(line, rows)
            lines.append(line)
        if (new := "\n".join(lines)) != text:
            write(p, new)
    print(len(rows), "names")
    return 0


if __name__ == "__main__":
    raise SystemExit(main(sys.argv[1:]))
