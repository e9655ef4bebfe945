#!/usr/bin/env python3
"""Names the parameters that a local of a call's values after it is read by: `let l = c.f.new in .. l.1.0` is `l.SECOND`.

usage: python3 tools/lets.py NAMES CRATE_FOLDER      after tools/walks.py
"""
import json
import os
import re
import sys


def main(argv):
    names, crate = json.load(open(argv[0])), argv[1]
    name = os.path.basename(os.path.abspath(crate))
    count = 0
    for key, d in names.items():
        m = re.match(rf"Rattle-{name}-proofs\.(.+)\.Lts$", key)
        if not m:
            continue
        p = os.path.join(crate, "proofs", m[1].replace(".", os.sep), "Proof.antt")
        if not os.path.exists(p):
            continue
        params = {q[2][1]: d["params"].get(q[3], []) for q in d["places"] if q[2] and q[3]}
        text = open(p, encoding="utf-8").read()
        blocks = re.split(r"(\n\n)", text)
        for i, b in enumerate(blocks):
            for h in re.finditer(r"let ([\w']+) = ([^\s]*?\.)?([\w-]+)\.(last|new|kept|auto)((?:\.1)*) in", b):
                ps = params.get(h[3])
                if not ps:
                    continue
                kind = {"last": "new", "kept": "auto"}.get(h[4], h[4])
                base = len(h[5]) // 2

                def put(k):
                    at = base + len(k[1]) // 2
                    return f"{h[1]}.{ps[at]}" if at < len(ps) else k[0]

                head, tail = b[: h.start()], b[h.end():]
                tail = re.sub(rf"(?<![\w.'-]){re.escape(h[1])}((?:\.1)*)\.0(?![\w])", put, tail)
                new = head + f"let {h[1]} = {h[2] or ''}{h[3]}.{kind} in" + tail
                if new != b:
                    blocks[i] = new
                    count += 1
                    break
        new = "".join(blocks)
        if new != text:
            open(p, "w", encoding="utf-8").write(new)
    print("lets", count)


if __name__ == "__main__":
    main(sys.argv[1:])
