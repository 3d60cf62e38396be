#!/usr/bin/env python3
"""Brings the names that this repository's specs/ and proofs/ define to one spelling.

    python3 tools/respell_names.py [--dry]

Run once, at the top, after /opt/rattle/port/port.py. A definition or lemma is written in snake case, a fact or another type in
camel case, a prime as an apostrophe. Names of src/, of the generated goals and of the libraries stay. It changes .antt files, the
clauses of .rt files and the must-fail edits. It stops, and changes nothing, where two names would fall together.
"""
import glob
import re
import sys

TOKEN = r"[^\s(){};,.«»\"]+"
DEFINES = re.compile(r"^((?:unfoldable |abbrev |pub |data |record |mutual )*)([^\s:({]+)(\s+[({].*?)?\s+:(?:\s+(.*))?$")
FIELD = re.compile(r"^ +(?:(?:abbrev|unfoldable) )?(pub )?([^\s:({|]+) :(?: |$)")
NOT_NAMES = re.compile(r"^(use|pub use|mod|pub mod|--.*|open|unfolding|let|where|in)(?=\s|$)")


def antt_files():
    return sorted(set(glob.glob("crates/*/specs/**/*.antt", recursive=True) + glob.glob("crates/*/proofs/**/*.antt", recursive=True)))


def signature(lines, i):
    """The whole signature that begins at line i: it goes on while lines are indented and no clause has begun."""
    text = lines[i]
    for line in lines[i + 1 :]:
        if not line.startswith(" ") or line.strip().startswith("--"):
            break
        text += " " + line.strip()
    return text


def is_type(text):
    return re.search(r"Type 0(\s+where)?$", text.strip()) is not None


def spelled(name, type_valued):
    name = name.replace("′", "'")
    words = [w for w in name.split("-") if w]
    if type_valued:
        return "".join(w[0].upper() + w[1:] for part in words for w in part.split("_") if w)
    name = "_".join(words)
    name = re.sub(r"(?<=[a-z0-9])([A-Z])", lambda m: "_" + m.group(1).lower(), name)
    return name[0].lower() + name[1:]


def defined():
    """name -> new name, for each name that a file defines and that a goal does not give."""
    kinds = {}
    for f in antt_files():
        lines = open(f).read().split("\n")
        for i, line in enumerate(lines):
            if NOT_NAMES.match(line):
                continue
            m = DEFINES.match(line)
            if m and "=" not in (m.group(3) or ""):
                if re.match(r"(goal|Goals|Given)\.", m.group(4) or ""):
                    continue
                kind = m.group(1)
                type_valued = "record" in kind or "data" in kind or is_type(signature(lines, i))
                kinds.setdefault(m.group(2), set()).add(type_valued)
                continue
            m = FIELD.match(line)
            if m:
                if m.group(1) is None and not re.match(r"^[a-zA-Z]", m.group(2)):
                    continue
                kinds.setdefault(m.group(2), set()).add(None)
    return kinds


def goal_names():
    names = set()
    for f in glob.glob("crates/*/proofs/**/*.antt", recursive=True):
        for m in re.finditer(r"^(?:abbrev )?(?:pub )?(\S+) : (?:goal|Goals|Given)\.", open(f).read(), re.M):
            names.add(m.group(1))
    return names


def taken():
    """The names that a new one may not be: of definitions, and of fields, ghost items, types and constants of src/."""
    names = set(defined()) | goal_names()
    for f in glob.glob("crates/*/src/**/*.rt", recursive=True):
        text = open(f).read()
        for pattern in (
            r"^\s*(?:pub(?:\(crate\))? )?([a-z_]+): ",
            r"^\s*ghost ([a-z_]+)(?::| =)",
            r"^\s*(?:pub(?:\(crate\))? )?(?:struct|enum|trait|const|type) (\w+)",
            r"^    ([A-Z]\w+)[,({ ]",
        ):
            names.update(re.findall(pattern, text, re.M))
    return names


def plan():
    moves = {}
    goals = goal_names()
    for name, kinds in defined().items():
        if name in goals or (name[0].isupper() and "-" not in name and "_" not in name and "′" not in name):
            continue
        facts = kinds - {None}
        if len(facts) == 2:
            print("both a fact and a value:", name)
        if facts == {True}:
            new = spelled(name, True)
        else:
            new = spelled(name, False)
        if new != name:
            moves[name] = new
    return moves


def in_antt(text, moves):
    return re.sub(TOKEN, lambda m: moves.get(m.group(0), m.group(0)), text)


def in_rt(text, moves):
    """Only a token with a hyphen or a prime, or one on a line of a clause, is ghost; comments and strings stay."""
    out = []
    ghost = False
    for line in text.split("\n"):
        code = line.strip()
        if code.startswith("//"):
            out.append(line)
            continue
        begins = re.match(r"(ghost|requires|ensures)\b", code)
        if begins or ghost:
            line = in_antt(line, moves)
            depth = (0 if begins else open_braces) + line.count("{") - line.count("}")
            open_braces = depth
            ghost = depth > 0
        out.append(line)
    return "\n".join(out)


def main():
    moves = plan()
    others = taken() - set(moves)
    bad = False
    by_new = {}
    for old, new in moves.items():
        by_new.setdefault(new, []).append(old)
    for new, names in sorted(by_new.items()):
        if len(names) > 1:
            print("fall together:", new, names)
            bad = True
        if new in others:
            print("stands already:", new, "for", names)
            bad = True
    for old, new in sorted(moves.items()):
        if "--dry" in sys.argv:
            print(f"{old} -> {new}")
    if "--dry" in sys.argv:
        return
    if bad:
        sys.exit("nothing was changed")
    for f in antt_files():
        text = open(f).read()
        new = in_antt(text, moves)
        if new != text:
            open(f, "w").write(new)
    for f in glob.glob("crates/*/src/**/*.rt", recursive=True):
        text = open(f).read()
        new = in_rt(text, moves)
        if new != text:
            open(f, "w").write(new)
    for f in glob.glob("crates/*/must-fail/*.edit"):
        text = open(f).read()
        new = in_antt(text, {o: n for o, n in moves.items() if "-" in o or "′" in o})
        if new != text:
            open(f, "w").write(new)


main()
