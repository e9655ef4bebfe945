#!/usr/bin/env python3
"""Mends what a check says of walks and lemmas, where its message has the answer.

usage: python3 tools/mend.py NAMES CRATE_FOLDER LOG       NAMES as for walks.py, LOG what `rt check` printed
"""
import json
import os
import re
import sys

SPELT = {"row_in": "row_within", "values_of": "values_of_holds"}


def plain(n):
    return n.replace("-", "_").lower()


def pick(field, fields):
    if field.endswith("_holds") and field[:-6] in fields:
        return field[:-6]
    for f in fields:
        if plain(f) == plain(field) or f in (field + "_holds", SPELT.get(field)):
            return f
    return None


def main(argv):
    names, crate, log = json.load(open(argv[0])), argv[1], open(argv[2]).read().split("\n")
    name = os.path.basename(os.path.abspath(crate))
    fixes = {}
    i = 0
    while i < len(log):
        m = re.match(r"\./(\S+\.antt):(\d+):(\d+): error: (.*)", log[i])
        if not m:
            i += 1
            continue
        j = i + 1
        more = []
        while j < len(log) and log[j].startswith("  "):
            more.append(log[j])
            j += 1
        file, line, col, text = m[1], int(m[2]), int(m[3]), m[4] + "\n" + "\n".join(more)
        i = j
        todo = fixes.setdefault(file, [])
        if "no clause covers" in text:
            clauses = [l[2:] for l in more if " = " in l and not l.strip().startswith(("no clause", "one side", "here "))]
            if clauses:
                todo.append((line, col, "insert", clauses))
            continue
        n = re.search(r"record `(\S+)` has no field `([^`]+)`", text)
        if n:
            fields = re.findall(r"`([^`]+)`", text.split("can be named here are", 1)[1]) if "can be named here are" in text else []
            f = pick(n[2], fields)
            if re.search(r"Lts\.By-\d+-", n[1]) and n[2].isdigit() and int(n[2]) < len(fields):
                f = fields[int(n[2])]
                fn = re.search(r"proofs\.(.+)\.Lts\.By-", n[1])
                todo.append((line, col, "by", (names.get(f"Rattle-{name}-proofs.{fn[1]}.Lts") if fn else None, fields)))
                continue
            near = re.search(r"\(nearest: \.([^),]+)", text)
            if not f and near and plain(near[1]).startswith(plain(n[2])) and "Lts." in n[1]:
                f = near[1]
            for old, new in (("left", "false"), ("taken", "true"), ("ok", "type_inv"), ("inv", "invariant"), ("branch", "branch-raw"), ("pre", "requires"), ("good", "well_formed")):
                if n[2] == old and not f:
                    f = new + "-raw" if new + "-raw" in fields else new if new in fields else None
            if f:
                todo.append((line, col, "field", (n[2], f)))
                continue
            owner = re.search(r"proofs\.(.+)\.Lts\.(?:Step-After-|(Last|Kept)-\d+)", n[1])
            tup = re.search(r"Lts\.(Last|Kept)-\d+$", n[1])
            if tup and len(fields) == 1:
                todo.append((line, col, "tuple", fields[0]))
                continue
            step = re.search(r"proofs\.(.+)\.Lts\.Step-(After-\S+)$", n[1])
            if step and n[2] in ("last", "kept"):
                d = names.get(f"Rattle-{name}-proofs.{step[1]}.Lts")
                for p, new in zip(d["places"], d["places_by_name"]) if d else []:
                    if new == step[2] and p[3]:
                        todo.append((line, col, "whole", (n[2], d["params"].get(p[3], []))))
                        break
            continue
        n = re.search(r"expected type `[^`]+`", text)
        if n and re.search("the two types (differ only|first differ)", text):
            todo.append((line, col, "search", None))
    count = 0
    for file, todo in fixes.items():
        p = os.path.join(crate, file)
        lines = open(p, encoding="utf-8").read().split("\n")
        for line, col, kind, what in sorted(todo, key=lambda t: (t[0], t[1]), reverse=True):
            text = lines[line - 1]
            if kind == "insert":
                indent = re.match(r"\s*", text)[0]
                lines[line - 1 : line - 1] = [indent + c for c in what]
                count += 1
                continue
            start = re.search(r"[\w']*$", text[: col - 1]).start() if kind in ("by", "search") else col - 1
            head, tail = text[:start], text[start:]
            was = text
            if kind == "field":
                new = re.sub(rf"\.{re.escape(what[0])}(?![\w'-])", "." + what[1], tail, count=1)
                if new == tail:
                    new, head = tail, re.sub(rf"\.{re.escape(what[0])}(?![\w'-])", "." + what[1], head)
            elif kind == "by":
                d, fields = what
                var = re.match(r"[\w']+(?=\.\d)", tail)
                raw = {p[2][1] for p in (d["places"] if d else []) if p[2] and any(r[1].endswith("-raw") for r in p[4] or [])}

                def named(k):
                    if int(k[1]) >= len(fields):
                        return k[0]
                    f = fields[int(k[1])]
                    test = {None: "", ".left": ".false", ".taken": ".true"}[k[2]]
                    return f"{var[0]}.{f}{test}" + ("-raw" if test and f in raw else "")

                new = re.sub(rf"(?<![\w.'-]){re.escape(var[0])}\.(\d+)(\.left|\.taken)?(?![\w])", named, tail) if var else tail
            elif kind == "tuple":
                new = re.sub(r"\.(new|auto|last|kept)(?:\.1)*\.0(?![\w])", lambda k: "." + {"last": "new", "kept": "auto"}.get(k[1], k[1]) + "." + what, tail, count=1)
            elif kind == "whole":
                def put(k):
                    at = len(k[1]) // 2
                    return "." + {"last": "new", "kept": "auto"}[what[0]] + "." + what[1][at] if at < len(what[1]) else k[0]
                new = re.sub(rf"\.{what[0]}((?:\.1)*)\.0(?!\w)", put, tail, count=1)
            else:
                new = re.sub(r"^(?:\([\w']+(?:\.before)+\)|[\w']+(?:\.before)+)(?![\w.'-])", "search", tail)
            lines[line - 1] = head + new
            count += lines[line - 1] != was
        open(p, "w", encoding="utf-8").write("\n".join(lines))
    print("mended", count)


if __name__ == "__main__":
    main(sys.argv[1:])
