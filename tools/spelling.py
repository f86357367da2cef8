#!/usr/bin/env python3
"""Brings the repository's own definitions and lemmas to today's spelling: snake case, and a dash only where it joins two names.

usage: tools/spelling.py [--dry] [FOLDER]

Run once, right after port.py. It collects every name that a file of specs/ or proofs/ declares (not the answers of a Proof.antt),
respells it, and rewrites .rt (clauses and ghost imports) and .antt files word by word. It says where a new name already stands in a
file that cites the old one. The table old, new is printed; --dry only prints it. Then rt fmt in each crate.
"""
import glob
import os
import re
import sys

WORD = re.compile(r"[^\W\d][\w'′₀-₉]*(?:-[\w'′₀-₉]+)*")
MARKS = r"(?:(?:pub|abbrev|unfoldable|pattern|record|data)\s+)*"
DECLARED = re.compile(r"^(\s*)" + MARKS + r"([^\W\d][^\s:(){}\[\],;.=]*)(?:\s*\{[^}]*\})?(?:\s+\([^)]*\))*\s*:\s")
KNOWN = set(
    "length get_or set take drop map append sum min max eqb ltb leb cond"
    .split()
)


def antt(root):
    return sorted(
        glob.glob(root + "/crates/*/specs/**/*.antt", recursive=True)
        + glob.glob(root + "/crates/*/proofs/**/*.antt", recursive=True)
    )


def read(path):
    with open(path, encoding="utf-8") as f:
        return f.read()


def declared(root):
    names = {}
    for path in antt(root):
        if path.endswith("/Proof.antt"):
            continue
        for line in read(path).splitlines():
            if re.match(r"\s*(?:use|mod|pub mod|pub use|--)\b", line) or line.lstrip().startswith("--"):
                continue
            m = DECLARED.match(line)
            if m:
                names.setdefault(m.group(2), set()).add(path)
    return names


def snake(part):
    if part[:1].isupper():
        return part
    part = re.sub(r"([a-z0-9])([A-Z])(?=[a-z])", lambda m: m.group(1) + "_" + m.group(2).lower(), part)
    return re.sub(r"([a-z0-9])([A-Z])$", lambda m: m.group(1) + "_" + m.group(2).lower(), part)


def respelled(name, definitions):
    parts = [snake("get_or" if p == "getD" else p) for p in name.split("-")]
    out = parts[0]
    for i in range(1, len(parts)):
        left, right = out.split("-")[-1], "_".join(parts[i:])
        joins = (left in definitions and (right in definitions or parts[i] in definitions)) or parts[i][:1].isupper() or left[:1].isupper()
        out += ("-" if joins else "_") + parts[i]
    return out


def defined(root):
    """The definitions of specs/: what stands at a line's beginning there, marked as open."""
    found = set()
    for path in glob.glob(root + "/crates/*/specs/**/*.antt", recursive=True):
        for line in read(path).splitlines():
            m = re.match(r"\s*(?:abbrev|unfoldable) pub ([^\W\d][\w'′₀-₉]*)\b", line)
            if m and not m.group(1)[0].isupper():
                found.add(m.group(1))
    return found


def foreign(root):
    """Names that some file brings in from another library: they keep their spelling."""
    own = set(os.listdir(root + "/crates"))
    found = set()
    for path in antt(root) + glob.glob(root + "/crates/*/src/**/*.rt", recursive=True):
        for m in re.finditer(r"use ([\w.]+)\.\{([^}]*)\}", read(path)):
            crate = re.match(r"Rattle\.(\w+)", m.group(1))
            if not (crate and crate.group(1) in own):
                found |= {n.strip().split(" as ")[0] for n in m.group(2).split(",")}
    return found


def words_left(root):
    """Names that are bound, or declared beside a function's answers, in two-humped words."""
    found = set()
    for path in antt(root):
        for line in read(path).splitlines():
            if not re.match(r"\s*(?:use|mod|pub mod|pub use|--)\b", line):
                found |= {w for w in WORD.findall(line) if re.fullmatch(r"[a-z]+(?:[A-Z][a-z]+)+", w)}
    return found


def table(root):
    """Each name and its new spelling; a lemma that would fall together with a definition gets _lem."""
    names = declared(root)
    open_names = defined(root)
    definitions = KNOWN | {snake(n) for n in open_names}
    kept = foreign(root)
    to = {n: respelled(n, definitions) for n in names if n not in kept}
    takers = {}
    for n in sorted(to, key=lambda n: (n not in open_names, "-" in n, n)):
        takers.setdefault(to[n], []).append(n)
    for taken, olds in takers.items():
        for n in olds[1:]:
            to[n] = taken + "_lem"
    to |= {n: snake(n) for n in words_left(root) if n not in kept and n not in to}
    return {n: t for n, t in to.items() if t != n}


def clauses(text):
    """The parts of a .rt file that are antt's: ghost imports and the braces of clauses."""
    spans = [m.span() for m in re.finditer(r"ghost use [^;]*;", text)]
    for m in re.finditer(r"\b(?:requires|ensures)\*?(?:\s+\w+)?\s*\{", text):
        depth, i = 1, m.end()
        while depth:
            depth += {"{": 1, "}": -1}.get(text[i], 0)
            i += 1
        spans.append((m.end(), i - 1))
    for m in re.finditer(r"\bghost\s+\w+\s*[:=]\s*\{[^}]*\}", text):
        spans.append(m.span())
    return sorted(spans)


def turn(text, names):
    return WORD.sub(lambda m: names.get(m.group(0), m.group(0)), text)


def turn_source(text, names):
    out, at = [], 0
    for a, b in clauses(text):
        if a < at:
            continue
        out += [text[at:a], turn(text[a:b], names)]
        at = b
    return "".join(out + [text[at:]])


def clashes(root, names):
    found = []
    new = {}
    for old, to in names.items():
        new.setdefault(to, set()).add(old)
    for to, olds in new.items():
        if len(olds) > 1:
            found.append(f"{', '.join(sorted(olds))} all become {to}")
    for path in antt(root) + sorted(glob.glob(root + "/crates/*/src/**/*.rt", recursive=True)):
        text = read(path)
        if path.endswith(".rt"):
            text = "\n".join(text[a:b] for a, b in clauses(text))
        words = set(WORD.findall(text))
        for old, to in names.items():
            if old in words and to in words:
                found.append(f"{os.path.relpath(path, root)}: {old} and {to}")
    return found


def main(argv):
    root = argv[-1] if argv and not argv[-1].startswith("-") else "."
    names = table(root)
    for line in clashes(root, names):
        print("falls together: " + line, file=sys.stderr)
    if "--dry" in argv:
        for old, to in sorted(names.items()):
            print(old, to)
        return 0
    respell(root, names)
    for old, to in sorted(names.items()):
        print(old, to)
    return main(argv) if names else 0


def respell(root, names):
    for path in antt(root):
        text = read(path)
        new = turn(text, names)
        if new != text:
            with open(path, "w", encoding="utf-8") as f:
                f.write(new)
    for path in sorted(glob.glob(root + "/crates/*/src/**/*.rt", recursive=True)):
        text = read(path)
        new = turn_source(text, names)
        if new != text:
            with open(path, "w", encoding="utf-8") as f:
                f.write(new)


if __name__ == "__main__":
    raise SystemExit(main(sys.argv[1:]))
