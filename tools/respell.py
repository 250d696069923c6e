#!/usr/bin/env python3
"""Brings this repository's own definitions and lemmas to today's spelling.

usage: tools/respell.py [--check]        at the top of the repository, once, right after /opt/rattle/port/port.py

Words with a dash become snake case (`line-id` is `line_id`), and types and facts camel case (`Of-lines` is `OfLines`). What it
respells is what specs/ and proofs/ declare: definitions, lemmas, fields, constructors, parameters and
aliases. Names that Rattle makes (goals and
steps), names of src/, texts and comments stay. --check writes nothing, and lists the names that would fall together with others.
"""
import pathlib
import re
import sys

DECLARED = re.compile(r"^\s*(?:(?:abbrev|unfoldable|pub|data|record|ruleset)\s+)*((?:[^\s(){}:;,.=λ]+\s+)*?[^\s(){}:;,.=λ]+)\s*(?:[({][^=]*)?:(?:\s|$)")
BOUND = re.compile(r"[({]((?:[^\s(){}:;,.=λ]+\s+)*[^\s(){}:;,.=λ]+)\s+: ")
ANSWER = re.compile(r"^\s*(?:abbrev\s+)?(?:pub\s+)?\S+\s*:\s*(?:goal|Goals?)\.")
# The numbers of the four limits would have the names of the thresholds' fields.
OTHERWISE = {
    "session-time": "session_time_limit",
    "session-volume": "session_volume_limit",
    "line-time": "line_time_limit",
    "line-volume": "line_volume_limit",
}


def declared(path):
    """The names that a file declares, without answers to goals; fields and constructors too."""
    names = set()
    for line in path.read_text().splitlines():
        if line.startswith("use "):
            names.update(re.findall(r" as ([\w'-]+)", line))
        if line.lstrip().startswith("--") or line.startswith("use ") or ANSWER.match(line):
            continue
        found = DECLARED.match(line)
        if found:
            words = [w for w in found.group(1).split() if w not in ("abbrev", "unfoldable", "pub", "data", "record", "ruleset", "module", "_")]
            names.update(words)
        for bound in BOUND.findall(line):
            names.update(bound.split())
    return names


def made(path):
    """The names in a file that Rattle makes: answers to goals, and steps behind a dot."""
    names = set()
    for line in path.read_text().splitlines():
        if ANSWER.match(line):
            names.add(line.split(":")[0].split()[-1])
    return names


def respelled(name):
    if name in OTHERWISE:
        return OTHERWISE[name]
    if name[0].isupper():
        head, *rest = name.split("-")
        return head + "".join(word[:1].upper() + word[1:] for word in rest)
    return name.replace("-", "_")


def texts(root):
    for top in sorted(root.glob("crates/*")):
        for kind in ("specs/**/*.antt", "proofs/**/*.antt"):
            for path in sorted(top.glob(kind)):
                yield path


def fields(paths):
    """The names of record fields: those that stand indented under `where`, or in a list of a record type."""
    names = set()
    for path in paths:
        inside = False
        for line in path.read_text().splitlines():
            if re.match(r"^(pub )?record .*where\s*$", line):
                inside = True
            elif inside and line and not line.startswith(" "):
                inside = False
            if inside:
                found = re.match(r"^\s+(?:pub\s+)?(\S+)\s*:\s", line)
                if found:
                    names.add(found.group(1))
    return names


def turn(text, table, dotted, code):
    """A text with the names of the table in their new spelling; behind a dot only fields, or the name of an import."""
    out = []
    for line in text.split("\n"):
        body, comment = line, ""
        at = line.find("//") if code else (0 if line.lstrip().startswith("--") else line.find(" -- "))
        if at >= 0:
            body, comment = line[:at], line[at:]
        path = re.match(r"^\s*(pub )?(ghost )?use ", body) is not None

        def one(found):
            word = found.group(0)
            if word not in table:
                return word
            before = body[: found.start()]
            if before.endswith(".") and not path and word not in dotted:
                return word
            return table[word]

        out.append(re.sub(r"(?<![\w'-])[^\W\d_][\w'-]*(?![\w'-])", one, body) + comment)
    return "\n".join(out)


def rust_parts(text):
    """The places of a source file that are clauses, ghost items or `ghost use` lines: those with antt in them."""
    parts = []
    for found in re.finditer(r"(?m)^\s*ghost use [^;]*;|\b(?:requires|ensures)\*?(?: \w+)? \{|\bghost \w+\s*[:=] \{|\bghost invariant[^{]*\{", text):
        start, end = found.start(), found.end()
        if text[end - 1] == "{":
            depth = 1
            while depth:
                depth += {"{": 1, "}": -1}.get(text[end], 0)
                end += 1
        parts.append((start, end))
    return parts


def main():
    check = sys.argv[1:] == ["--check"]
    root = pathlib.Path(".")
    antt = list(texts(root))
    rust = sorted(root.glob("crates/*/src/**/*.rt"))
    names, goals = set(), set()
    for path in antt:
        names |= declared(path)
        goals |= made(path)
    table = {n: respelled(n) for n in sorted(names) if "-" in n and re.match(r"^[^\W\d_][\w'-]*$", n)}
    both = sorted(set(table) & goals)
    for name in both:
        del table[name]
    dotted = fields(antt) & set(table)
    clash = False
    known = {n for n in names if n not in table}
    for old, new in table.items():
        if new in known or list(table.values()).count(new) > 1:
            print(f"falls together: {old} and {new}")
            clash = True
    for path in antt + rust:
        text = path.read_text()
        parts = [(0, len(text))] if path.suffix == ".antt" else rust_parts(text)
        words = set(re.findall(r"(?<![\w'-])[^\W\d_][\w'-]*(?![\w'-])", text))
        for old in sorted(words & set(table)):
            if table[old] in words:
                print(f"{path}: has both {old} and {table[old]}")
        new, last = "", 0
        for start, end in parts:
            new += text[last:start] + turn(text[start:end], table, dotted, path.suffix == ".rt")
            last = end
        new += text[last:]
        if not check and new != text:
            path.write_text(new)
    if both:
        print("names that are goals too, left as they are: " + ", ".join(both))
    print(f"{len(table)} names")
    return 1 if clash else 0


if __name__ == "__main__":
    sys.exit(main())
