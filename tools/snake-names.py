#!/usr/bin/env python3
"""Brings the repository's own definitions, lemmas and record fields to snake case; types keep their capital.

usage: tools/snake-names.py [--list]      at the top of the repository; --list writes nothing and prints old and new

A name counts as the repository's own where a file of specs/ or proofs/ declares it. Names of src/ keep their spelling, and so do names that Rattle makes
(after `tie.`, and the goals that a Proof.antt answers). Strings and comments of src/ are left, but for names in backquotes.
"""
import os
import re
import sys

W = r"[^\s(){}.;,@\"«»\[\]\\`]+"
DECLARED = re.compile(r"^\s*(?:(?:abbrev|unfoldable|pub|open|data|record|ruleset)\s+)*(" + W + r")(?:\s+\([^)]*\))*\s+:(?:\s|$)")
RECORD = re.compile(r"^\s*(?:(?:abbrev|pub)\s+)*(?:record|data)\s+(" + W + ")")
# Lemmas that would have the name of the definition that they are about, and one definition beside a lemma.
OTHERWISE = {name: name.replace("-", "_") + "_lem" for name in """
    is-text character-at refusal-told lead-in count-sent on-air block-text tone-below row-value table-sign unclear-at
    text-end lead-heard sent-tones found-start settings-said line-said tones-read blocks-listed checked-listed lines-listed
    scan-from block-codes text-heard block-tones bad-tone digit-read may-follow read-sentence bit-at count-of is-row
    symbol-at
""".split()}
OTHERWISE["digitValue"] = "value_of_digit"
# A field that would hide the definition that a later field speaks of.
OTHERWISE["in-band"] = "tones_in_band"
# The same, in snake case already: in these crates alone.
IN_CRATES = {("text", "is_digit"): "is_digit_lem", ("sentence", "is_digit"): "is_digit_lem", ("sentence_laws", "is_known"): "is_known_lem", ("listing_laws", "goes_on"): "goes_on_lem"}


def files(root):
    for folder, dirs, names in os.walk(os.path.join(root, "crates")):
        dirs[:] = sorted(d for d in dirs if d not in ("out", "target"))
        for f in sorted(names):
            if f.endswith((".rt", ".antt", ".edit")):
                yield os.path.join(folder, f)


def snake(name):
    if not re.match(r"[a-z]", name):
        return name.replace("-", "_") if re.match(r"[A-Z]\w*-", name) is None else name
    name = re.sub(r"(?<=[a-z0-9])([A-Z])(?=[a-z])", lambda m: "_" + m.group(1).lower(), name)
    return name.replace("-", "_")


def own(root):
    found, others = {}, set()
    for path in files(root):
        if not path.endswith(".antt"):
            continue
        with open(path, encoding="utf-8") as f:
            text = f.read()
        for line in text.splitlines():
            line = line.split("--", 1)[0] if line.lstrip().startswith("--") else line
            m = DECLARED.match(line)
            if m and not RECORD.match(line):
                found.setdefault(m.group(1), []).append(path)
        for m in re.finditer(r"^use ([^\s{]+)\.\{([^}]*)\}", text, re.M):
            if not m.group(1).startswith("Rattle.") or m.group(1).startswith("Rattle.std."):
                others |= {it.strip() for it in m.group(2).split(",")}
    return found, others


def main(argv):
    root = "."
    found, others = own(root)
    names = {}
    for name in found:
        new = OTHERWISE.get(name, snake(name))
        if new != name and name not in others and re.search(r"[A-Za-z]", name):
            names[name] = new
    if "--list" in argv:
        for a, b in sorted(names.items()):
            print(a, b)
        return
    token = re.compile(r"--[^\n]*|//[^\n]*|\"(?:[^\"\\]|\\.)*\"|«[^»]*»|" + W)
    for path in files(root):
        with open(path, encoding="utf-8") as f:
            text = f.read()
        code = path.endswith(".rt")
        here = os.path.relpath(path, root).split(os.sep)[1]

        def turn(m):
            it = m.group(0)
            if it.startswith(("--", "//")) and len(it) > 2 and (it.startswith("//") == code or path.endswith(".edit")):
                return re.sub(r"`(" + W + ")`", lambda n: "`" + names.get(n.group(1), n.group(1)) + "`", it)
            if text[: m.start()].endswith("tie."):
                return it
            return names.get(it, it if code else IN_CRATES.get((here, it), it))

        new = token.sub(turn, text)
        if new != text:
            with open(path, "w", encoding="utf-8") as f:
                f.write(new)


if __name__ == "__main__":
    main(sys.argv[1:])
