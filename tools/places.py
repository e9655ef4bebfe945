#!/usr/bin/env python3
"""Counts, in crates/*/src, the places of each point of docs/DESIGN-PASS.md that a pattern can find.

usage: python3 tools/places.py [--list POINT]      at the top of the repository
"""
import collections
import glob
import re
import sys

KEPT_WORDS = set("let mut while for in if else return match true false as fn loop break continue pub".split())
TYPES = {"usize", "u8", "u64", "i64", "f64", "bool"}
# Parameters that travel together, as the arrays of one thing.
GROUPS = [
    ("values", "list", "count"),
    ("starts", "cols", "coeffs"),
    ("cstarts", "crows", "ccoeffs"),
    ("numbers", "doubles"),
    ("factor_numbers", "factor_coeffs"),
    ("lowers", "uppers"),
    ("coefs", "costs"),
]


def sources():
    for path in sorted(glob.glob("crates/*/src/*.rt")):
        yield path, re.sub(r"//.*", "", open(path, encoding="utf-8").read())


def functions():
    """Crate, name, parameters, clauses and body of each function."""
    for path, text in sources():
        for m in re.finditer(r"^( *)(?:pub )?(?:extern \"C\" )?fn (\w+)(?:<[^(]*>)?\(([^)]*)\)", text, re.M):
            opens = re.compile(r"(^%s\{$| \{$)" % m[1], re.M).search(text, m.end())
            ends = text.find("\n%s}" % m[1], opens.end()) if opens else -1
            names = [p.strip().split(":")[0].strip() for p in m[3].split(",") if ":" in p]
            if ends >= 0:
                yield path.split("/")[1], m[2], names, text[m.end() : opens.start()], text[opens.end() : ends]


def enums():
    for path, text in sources():
        for m in re.finditer(r"^(?:pub )?enum (\w+) \{(.*?)^\}", text, re.M | re.S):
            depth, cases, word = 0, [], ""
            for ch in m[2]:
                depth += (ch in "({") - (ch in ")}")
                if ch == "," and depth == 0:
                    cases.append(word.strip())
                    word = ""
                else:
                    word += ch
            yield path, m[1], [c for c in cases + [word.strip()] if c]


def bare(body):
    """A body with its names numbered, its numbers and its types alike."""
    names, out = {}, []
    for t in re.findall(r"[A-Za-z_]\w*|\d[\w.]*|\S", body):
        if t[0].isdigit():
            out.append("0")
        elif t in TYPES:
            out.append("T")
        elif t[0].isalpha() and t not in KEPT_WORDS:
            out.append(names.setdefault(t, "v%d" % len(names)))
        else:
            out.append(t)
    return " ".join(out)


def places():
    found = collections.defaultdict(list)
    for path, name, cases in enums():
        if len(cases) == 2 and (not all("(" in c or "{" in c for c in cases) or all("(" in c or "{" in c for c in cases)):
            found["1 enums of two cases"].append(f"{path} {name}")
        elif len(cases) > 2 and sum("(" in c or "{" in c for c in cases) == 1:
            found["1 enums with one case that carries"].append(f"{path} {name}")
    groups = collections.defaultdict(list)
    uses = collections.Counter()
    for crate, name, params, clauses, body in functions():
        f = f"{crate}::{name}"
        if "-> usize" in clauses and re.search(r"return [1-9]\d*;|\{ *[1-9]\d* *\}|=> [1-9]\d*,", body):
            found["1 functions that answer a number for a refusal or a kind"].append(f)
        if len(bare(body).split()) >= 15:
            groups[bare(body)].append(f)
        for line in re.findall(r"\b(?:while|loop)\b[^\n]*\{", body):
            found["3 while and loop"].append(f"{f}: {line}")
        asked = " ".join(re.findall(r"requires[^{]*\{(.*?)\}\s*(?=requires|ensures|$)", clauses, re.S))
        for word in set(re.findall(r"\b[A-Z]\w+\b", asked)) - {"List", "Bool", "Float"}:
            uses[word] += 1
        for g in GROUPS:
            if all(p in params for p in g):
                found["5 parameters " + ", ".join(g)].append(f)
        if "count" in params and "list" in params:
            found["6 a buffer with its length beside"].append(f)
        for line in re.findall(r"\bif (?:which|kind|op|mark) ==[^\n]*", body):
            found["7 a switch by tests of a number"].append(f"{f}: {line}")
    for same in groups.values():
        if len(same) > 1:
            found["2 functions whose bodies differ in names, types and numbers"].append(" ".join(same))
    for word, n in sorted(uses.items()):
        if n >= 3:
            found["5 facts asked by three functions or more"].append(f"{word} {n}")
    for path, text in sources():
        for m in re.finditer(r"impl (?:PartialEq|Eq|Ord|PartialOrd|Clone|Default|fmt::Display)\b[^\n]*", text):
            found["4 equality, order, copying and printing by hand"].append(f"{path} {m[0]}")
        for m in re.finditer(r"pub fn (\w+_(?:answer|verdict|number|of))\(\w+: [\w:]+\)", text):
            found["4 conversions by hand"].append(f"{path} {m[1]}")
    for path in glob.glob("crates/*/proofs/**/Proof.antt", recursive=True):
        found["8 whole proofs"].append(path)
    return found


def main(argv):
    found = places()
    if argv[:1] == ["--list"]:
        for kind in sorted(found):
            if kind.startswith(argv[1]):
                print(kind, *found[kind], sep="\n  ")
        return
    for kind in sorted(found):
        print(f"{len(found[kind]):5} {kind}")


if __name__ == "__main__":
    main(sys.argv[1:])
