#!/usr/bin/env python3
"""Brings the definitions and laws of this repository to one spelling: words in snake case, types and modules in camel case.

usage: python3 tools/respell.py apart    before the kit's port.py: a law whose name would fall together with a definition's gets '-lem' behind it
       python3 tools/respell.py          after it: every other name that specs/ or a file of proofs/ declares, in both and in contracts and pages

Names are taken from the declarations below crates/ at the working folder, so the same tree gives the same names each time. What a library
declares and what the check makes for a function keep their spelling, and so do strings, code, functions and exported names.
"""

import collections
import os
import re
import sys

NAME = re.compile(r'[^\s(){}.;,@"«»]+')
OLD = re.compile(r"[a-z][A-Za-z0-9_'ʹ′-]*")
DECLARED = re.compile(
    r"^\s*(?:(?:abbrev|unfoldable|pub|mutual)\s+)*(?:(?:ruleset|record|data)\s+)?(?:pub\s+)?((?:[^\s(){};,.:]+\s+)+)(?:[({].*)?:\s"
)
RULES = re.compile(r"^\s*(?:pub\s+)?ruleset\s+(?:pub\s+)?([^\s=]+)\s*=")
USE = re.compile(r"^\s*(?:pub\s+)?use\s+([^\s{;]+?)\.\{([^}]*)\}", re.M)
GHOST_USE = re.compile(r"ghost\s+use\s+([^\s{;]+?)\.\{([^}]*)\}\s*;", re.S)
CLAUSE = re.compile(r"\b(?:requires|ensures|ghost|invariant)\b(?:\s+\w+)?\s*:?\s*\{")
HOLE = "◌_"


def snake(name):
    name = name.replace("-", "_")
    name = re.sub(r"(?<=[a-z0-9])([A-Z])", lambda m: "_" + m.group(1).lower(), name)
    return re.sub(r"(?<=_)([A-Z])", lambda m: m.group(1).lower(), name)


def old(name):
    return OLD.fullmatch(name) is not None and snake(name) != name


def files(end):
    for folder, dirs, names in os.walk("crates"):
        dirs[:] = sorted(d for d in dirs if d not in ("out", "must-fail", "target"))
        for name in sorted(names):
            if name.endswith(end):
                yield os.path.join(folder, name)


def of_a_function(path):
    parts = path.split(os.sep)
    return parts[2] == "proofs" and len(parts) > 4


def parts_of(name):
    """A name and, of one with places for its arguments, the words between them."""
    yield name
    if any(hole in name for hole in HOLE):
        for word in re.split("[◌]", name):
            if word:
                yield word


def declared():
    names = collections.defaultdict(set)
    for path in files(".antt"):
        if of_a_function(path):
            continue
        with open(path, encoding="utf-8") as f:
            for line in f:
                if line.lstrip().startswith("--"):
                    continue
                rules = RULES.match(line)
                found = [rules.group(1)] if rules else []
                heads = None if rules else DECLARED.match(line)
                if heads:
                    found = heads.group(1).split()
                for name in found:
                    for word in parts_of(name):
                        names[word].add(path)
    return names


def written(crates):
    """Every other name in specs/ or a file of proofs/ that no library brings in: arguments, fields, what a `let` binds."""
    names = set()
    for path in files(".antt"):
        if of_a_function(path):
            continue
        with open(path, encoding="utf-8") as f:
            text = f.read()
        keep = brought_in(text, USE, crates)
        for line in text.split("\n"):
            code = re.sub(r'"(?:[^"\\]|\\.)*"', "", cut(line)[0])
            if not re.match(r"\s*(?:pub\s+)?use\s", code):
                names.update(w for w in NAME.findall(code) if old(w) and w not in keep)
    return names


def own(module, crates):
    parts = module.replace("·", ".").split(".")
    return len(parts) > 1 and parts[0] == "Rattle" and parts[1] in crates


def brought_in(text, pattern, crates):
    """What a file takes from a library: those names are not ours."""
    names = set()
    for module, items in pattern.findall(text):
        if not own(module, crates):
            for item in items.split(","):
                words = item.split()
                if words:
                    names.add(words[-1])
                    names.update(parts_of(words[-1]))
    return names


def turned(text, table, keep):
    def one(m):
        word = m.group(0)
        module = re.search(r"([^\s(){}.;,@]+)\.$", text[max(0, m.start() - 80) : m.start()])
        if word in keep or module and module.group(1)[0].isupper() and module.group(1) in keep:
            return word
        if word in table:
            return table[word]
        if "◌" in word:
            return "◌".join(table.get(w, w) for w in word.split("◌"))
        return word

    return NAME.sub(one, text)


def spans(text, table):
    """Of words for a reader, only names in backticks turn, and names that no sentence has, with a capital inside."""
    camel = {a: b for a, b in table.items() if re.search("[A-Z]", a)}
    text = re.sub(r"`[^`\n]*`", lambda m: turned_in_span(m.group(0), table), text)
    return re.sub(r"(?<![\w.·/-])[a-z][A-Za-z0-9]*[A-Z][A-Za-z0-9]*(?![\w/-])", lambda m: camel.get(m.group(0), m.group(0)), text)


def turned_in_span(span, table):
    return "`" + re.sub(r"[A-Za-z][A-Za-z0-9_'-]*", lambda m: table.get(m.group(0), m.group(0)), span[1:-1]) + "`"


def antt(text, table, crates):
    keep = brought_in(text, USE, crates)
    lines = []
    for line in text.split("\n"):
        code, mark, comment = cut(line)
        # text between quotes is what a program prints
        pieces = re.split(r'("(?:[^"\\]|\\.)*")', code)
        code = "".join(p if i % 2 else turned(p, table, keep) for i, p in enumerate(pieces))
        lines.append(code + mark + (spans(comment, table) if mark else ""))
    return "\n".join(lines)


def cut(line):
    m = re.search(r'(?:^|(?<=[\s(){}.;,]))--(?=\s|$|-)', line)
    return (line, "", "") if not m else (line[: m.start()], "--", line[m.end() :])


def clause_end(text, at):
    depth = 0
    for i in range(at, len(text)):
        if text[i] == "{":
            depth += 1
        elif text[i] == "}":
            depth -= 1
            if depth == 0:
                return i + 1
    return len(text)


def rt(text, table, crates):
    keep = brought_in(text, GHOST_USE, crates)
    out, at = [], 0
    for m in re.finditer(r"//[^\n]*|ghost\s+use\b[^;]*;|" + CLAUSE.pattern, text):
        if m.start() < at:
            continue
        out.append(text[at : m.start()])
        if m.group(0).startswith("//"):
            out.append(spans(m.group(0), table))
            at = m.end()
        elif m.group(0).startswith("ghost") and m.group(0).endswith(";"):
            out.append(turned(m.group(0), table, keep))
            at = m.end()
        else:
            end = clause_end(text, m.end() - 1)
            out.append(m.group(0) + turned(text[m.end() : end], table, keep))
            at = end
    return "".join(out) + text[at:]


def pages():
    for folder in (".", "docs", "bench", "examples", "reference", "tests"):
        if os.path.isdir(folder):
            for name in sorted(os.listdir(folder)):
                if name.endswith(".md") and name not in ("PORT.md",):
                    yield os.path.join(folder, name)


def rewrite(path, turn):
    with open(path, encoding="utf-8") as f:
        was = f.read()
    now = turn(was)
    if now != was:
        with open(path, "w", encoding="utf-8") as f:
            f.write(now)


def apart(names):
    groups = collections.defaultdict(set)
    for name in names:
        if name[0].isalpha() and name[0].islower():
            groups[snake(name)].add(name)
    return {name: name + "-lem" for group in groups.values() if len(group) > 1 for name in group if "-" in name}


def main():
    crates = set(os.listdir("crates"))
    names = declared()
    if sys.argv[1:] == ["apart"]:
        table = apart(names)
    else:
        table = {name: snake(name) for name in set(names) | written(crates) if old(name)}
        for name, to in table.items():
            if to in names:
                print(f"look: {name} falls together with {to}: {sorted(names.get(name, []))[:2]} {sorted(names[to])[:2]}")
    for path in files(".antt"):
        rewrite(path, lambda t: antt(t, table, crates))
    for path in files(".rt"):
        rewrite(path, lambda t: rt(t, table, crates))
    if sys.argv[1:] != ["apart"]:
        for path in pages():
            rewrite(path, lambda t: spans(t, table))
    print(f"{len(table)} names")


if __name__ == "__main__":
    main()
