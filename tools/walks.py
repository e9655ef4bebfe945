#!/usr/bin/env python3
"""Brings a crate's proofs/F/Proof.antt to the goal, place, step and field names of the installed check.

usage: python3 tools/walks.py NAMES CRATE_FOLDER [FUNCTION..]

NAMES is names.json as `rt check --generated FOLDER --old-names` writes it in the crate's folder. A line for each goal that has no partner.
"""
import json
import os
import re
import sys

HEADS = {"fits": "ranges", "pre": "requires", "requires": "requires", "good": "well_formed", "args": "args", "ranges": "ranges", "lifetimes": "lifetimes"}
TESTS = {"taken": "true", "left": "false"}
FIELDS = {"inv": "invariant", "branch": "branch-raw", "ok": "type_inv"}
TUPLES = {"last": "new", "new": "new", "kept": "auto", "auto": "auto"}
STEP_FIELDS = {"ensures", "result", "new", "true", "false", "taken", "left", "inv", "invariant", "ok", "type_inv", "auto", "given", "branch", "last", "kept", "fact"}
PATH = r"(?<![\w.'-])(%s\.[\w'-]+)|(?<![\s(,.])((?:\.[A-Za-z_0-9][\w'-]*)+)"


def same(name):
    return name.replace("-", "_").rstrip("'").lower()


def functions(crate):
    top = os.path.join(crate, "proofs")
    for folder, dirs, names in os.walk(top):
        dirs.sort()
        if "Proof.antt" in names:
            yield os.path.relpath(folder, top).replace(os.sep, ".")


def labels(old):
    """The spellings that an old goal's name may have in a file: the kit's first script turned some heads."""
    yield same(old)
    if re.match(r"(add|sub|mul|shl|shr|neg|cast|div|rem)[_-]", old):
        yield "overflow_" + same(old)


class Walk:
    def __init__(self, d, fn, said, tie="tie"):
        self.d, self.fn, self.said, self.tie = d, fn, said, tie
        self.new = d["places_by_name"]
        self.parent = {}
        at = {}
        for i, p in enumerate(d["places"]):
            self.parent[i] = at.get(p[1])
            at.setdefault(p[0], i)
        self.at = {}
        for i, p in enumerate(d["places"]):
            self.at.setdefault(same(p[0]), i)
        self.loops = {same(o): n for (o, n), _ in d["loops"]}

    def chain(self, i):
        while i is not None:
            yield i
            i = self.parent[i]

    def goals(self, code):
        """The table of goals' names, from the order of tie.spec's arguments, and each local name's place."""
        decl = dict(re.findall(rf"^(\S+) :(?:[^\n]|\n[ \t])*?\s+{self.tie}\.Need-([\w'-]+)", code, re.M))
        spec = re.search(rf"{self.tie}\.spec\b((?:[^()]|\([^()]*\))*)", code)
        args = [a for a in re.findall(r"[^\s()]+", spec[1]) if a in decl] if spec else []
        needs, asked = self.d["needs"], self.d["asked_at"]
        self.table, self.where = {}, {}
        place = {n: i for i, n in reversed(list(enumerate(self.new)))}
        if len(args) == len(needs):
            for a, (old, new), (_, p) in zip(args, needs, asked):
                self.table[decl[a]] = new
                self.where[a] = place.get(p)
        else:
            self.said.append(f"{self.fn}: {len(args)} goals in the file, {len(needs)} asked")
            by = {}
            for (old, new), (_, p) in zip(needs, asked):
                for l in labels(old):
                    by.setdefault(l, (new, place.get(p)))
            for a, o in decl.items():
                if same(o) in by:
                    self.table[o], self.where[a] = by[same(o)]
                else:
                    self.said.append(f"{self.fn}: no goal {o}")

    def place(self, name, ctx):
        """A place's new name: one that an arm took in gives way to the last of the arm above the goal."""
        i = self.at.get(same(name))
        if i is None:
            return name
        arm = self.d["arms"][i]
        if arm:
            # for a goal, what stands above it; for a lemma of the file, the whole arm
            for j in self.chain(ctx) if ctx is not None and self.goal else reversed(range(len(self.new))):
                other = self.d["arms"][j]
                if other and other[0] == arm[0] and i in self.chain(j):
                    return self.new[j]
        return self.new[i]

    def steps(self, ctx):
        """Old step name to (place, new name), those above the place at hand first."""
        out = {}
        for i in list(self.chain(ctx)) + list(range(len(self.d["places"]))):
            p = self.d["places"][i]
            if p[2] and p[2][0]:
                out.setdefault(same(p[2][0]), (i, p[2][1]))
        return out

    def arm(self, ctx, old, rest):
        """The new path of an old step that an arm took in."""
        order = list(self.chain(ctx)) if ctx is not None else []
        order += [i for i in range(len(self.d["places"])) if i not in order]
        for i in order:
            arm = self.d["arms"][i]
            if not arm:
                continue
            hits = [f for f in arm[2] if same(f[1]) == old and [same(x) for x in f[2]] == rest[: len(f[2])]]
            if hits:
                best = max(hits, key=lambda f: len(f[2]))
                return [arm[0], best[0]], len(best[2])
        return None

    def stands(self, at, root, befores, after):
        """Whether a name at the head of a path is a step's: behind `c` or `before`, or where one of its fields follows."""
        vars = {same(v) for (_, new), vs in self.d["loops"] if self.d["places"][at][2][1] == new for v in vs}
        return root == "c" or befores or bool(after) and (after[0] in STEP_FIELDS or same(after[0]) in vars)

    def path(self, text, ctx, root):
        words = text[1:].split(".")
        steps, out, i, befores, fresh = self.steps(ctx), [], 0, 0, True
        while i < len(words):
            w = same(words[i])
            if w.endswith("_holds") and w[:-6] in steps:  # the respelling took a callee's name for a lemma's
                w = w[:-6]
            if fresh and w == "before":
                befores, i = befores + 1, i + 1
                continue
            if fresh and w in HEADS and (w != "fits" or i + 1 < len(words)):
                out.append(HEADS[w])
                i, befores, fresh = i + 1, 0, False
                out += [re.sub("_holds$", "", x.replace("-", "_")) if HEADS[w] == "args" else x.replace("-", "_") for x in words[i : i + 1]]
                i += 1
                continue
            step = fresh and w in steps and self.stands(steps[w][0], root, befores, words[i + 1 :])
            if step:
                got = self.arm(ctx, w, [same(x) for x in words[i + 1 :]])
                if got and got[0]:
                    out += got[0]
                    i, befores, fresh = i + 1 + got[1], 0, False
                    continue
            if step:
                at, new = steps[w]
                out.append(new)
                i, befores, fresh = i + 1, 0, False
                place = self.d["places"][at]
                tuple = re.match(r"(last|new|kept|auto)((?:\.1)*)\.0(?=\.|$)", ".".join(words[i:]))
                names = self.d["params"].get(place[3] or "", [])
                if tuple and len(tuple[2]) // 2 < len(names):
                    out += [TUPLES[tuple[1]], names[len(tuple[2]) // 2]]
                    i += len(tuple[2]) // 2 + 2
                elif i < len(words):
                    loop = place[2][1] in self.loops.values()
                    f = words[i].replace("-", "_") if loop and words[i] in TESTS else TESTS.get(words[i], FIELDS.get(words[i], words[i].replace("-", "_")))
                    renamed = {o: n for o, n in place[4] or []}
                    out.append(renamed.get(f, f) if f not in FIELDS.values() else f)
                    i += 1
                continue
            out += ["before"] * befores + [words[i].replace("-", "_") if words[i] != "branch-raw" else words[i]]
            befores, fresh, i = 0, False, i + 1
        return "." + ".".join(out + ["before"] * befores)

    def turn(self, text):
        code = re.sub(r"--[^\n]*", "", text)
        self.goals(code)
        out, ctx, self.goal = [], None, False
        for line in text.split("\n"):
            if line.startswith("use "):
                out.append(line)
                continue
            m = re.match(r"(?:abbrev )?(?:pub )?([^\s(){}:]+) :(?= |$)", line)
            if m:
                self.goal = m[1] in self.where
                if self.goal:
                    ctx = self.where[m[1]]
                else:
                    named = [self.at[same(x)] for x in re.findall(rf"{self.tie}\.([\w'-]+)", line) if same(x) in self.at]
                    ctx = max(named, key=lambda i: len(list(self.chain(i)))) if named else None
            head, sep, note = line.partition("--") if re.search(r"(^|\s)--(\s|$)", line) else (line, "", "")

            def one(m):
                if not m[1]:
                    root = re.search(r"[\w'-]*$", head[: m.start(2)])[0]
                    return self.path(m[2], ctx, root)
                name = m[1][len(self.tie) + 1 :]
                if name.startswith("Need-"):
                    return f"{self.tie}.Need-" + self.table.get(name[5:], name[5:])
                for h in ("invariant-", "decreases-"):
                    if name.startswith(h) and same(name[len(h) :]) in self.loops:
                        return f"{self.tie}.{h}" + self.loops[same(name[len(h) :])]
                return f"{self.tie}." + self.place(name, ctx)

            head = re.sub(PATH % self.tie, one, head)
            head = re.sub(r"(?<![\w.'-])([\w-]+)-spec\b(?= :| =)", lambda m: same(m[1]) + "_spec", head)
            out.append(head + sep + note)
        return "\n".join(out)


def main(argv):
    names, crate, only = json.load(open(argv[0])), argv[1], argv[2:]
    name = os.path.basename(os.path.abspath(crate))
    said = []
    for fn in functions(crate):
        if only and fn not in only:
            continue
        stem = f"Rattle-{name}-proofs.{fn}.Lts"
        found = [(d, k[len(stem) :]) for k, d in names.items() if k == stem or fn[0] == "+" and k.startswith(stem + "-")]
        if not found:
            said.append(f"{fn}: no names")
            continue
        p = os.path.join(crate, "proofs", fn.replace(".", os.sep), "Proof.antt")
        with open(p, encoding="utf-8") as f:
            text = f.read()
        new = text
        for d, member in found:
            new = Walk(d, fn, said, member[1:] + "-lts" if member else "tie").turn(new)
        if new != text:
            with open(p, "w", encoding="utf-8") as f:
                f.write(new)
    print("\n".join(said))


if __name__ == "__main__":
    main(sys.argv[1:])
