#!/usr/bin/env python3
"""Brings the repository's own definitions and lemmas to the spelling of today's Rattle, once, after port.py.

A definition in camel case gets snake case (`pastStates` is `past_states`). A dash stays between two names, the first of them a
definition or a constructor (`has-bit`, `head_of-short`); where it only joined words it becomes `_` (`first_here`). Functions of
src/, exported C names, strings, inputs and outputs keep their names: a name is turned in antt, in clauses and `ghost use` lines of
.rt files, and in comments between backticks.

usage: python3 tools/respell.py          at the top of the repository: rewrites crates/*/{src,specs,proofs}, prints the table
       python3 tools/respell.py FILE..   rewrites these files alone, by the table of names that the tree was given before
"""

import glob
import json
import os
import re
import sys

# a token of antt: a run of what no bracket, comma, semicolon, dot, quote or space ends
TOKEN = r"[^\s(){}\[\],;.`\"λ:]+"
DECLARED = re.compile(
    r"^(?P<indent>\s*)(?:pub )?(?P<kind>abbrev |unfoldable |record |data |ruleset )?(?:pub )?(?P<name>" + TOKEN + r")"
    r"(?P<params>(?: \([^=]*?\)| \{[^=]*?\})*) : "
)
TABLE = "tools/respelled.json"
# a lemma about a definition that gets its name now
GIVEN = {"settled-in": "settled_in_lem"}


def snake(name):
    """Lower camel case to snake case; a name that begins with a capital, a fact or a type, stays."""
    return re.sub(r"(?<=[a-z0-9])([A-Z])", lambda m: "_" + m.group(1).lower(), name) if name[:1].islower() else name


def lemma_files():
    return sorted(glob.glob("crates/*/specs/*.antt") + glob.glob("crates/*/proofs/*.antt"))


def declared():
    """Each name that specs/ and the lemma files declare, with whether it is a definition's."""
    names = {}
    for path in lemma_files():
        in_specs = "/specs/" in path
        inside = None
        for line in open(path, encoding="utf-8"):
            if line.lstrip().startswith("--"):
                continue
            if re.match(r"\S", line):
                inside = "data" if re.match(r"(pub )?data ", line) else "record" if re.match(r"(pub )?record ", line) else None
            m = DECLARED.match(line)
            if not m or m.group("name") in ("let", "where", "in"):
                continue
            kind = (m.group("kind") or "").strip()
            definition = not m.group("indent") and (in_specs and kind != "data" or kind in ("abbrev", "unfoldable", "record"))
            names[m.group("name")] = names.get(m.group("name"), False) or definition
    return names


def respelled(names):
    heads = {snake(n[:1].lower() + n[1:]) for n, d in names.items() if d}
    table = {}
    for name in names:
        if name in GIVEN:
            table[name] = GIVEN[name]
            continue
        new = snake(name)
        if "-" in new:
            parts = [snake(p) for p in new.split("-")]
            cut = 0
            for i in range(1, len(parts)):
                if "_".join(parts[:i]) in heads and parts[i] not in ("a", "the"):
                    cut = i
            new = "_".join(parts[:cut]) + "-" + "_".join(parts[cut:]) if cut else "_".join(parts)
        if new != name:
            table[name] = new
    return table


def turn_tokens(text, table):
    return re.sub(TOKEN, lambda m: table.get(m.group(0), m.group(0)), text)


def turn_comment(text, table):
    return re.sub(r"`([^`]*)`", lambda m: "`" + turn_tokens(m.group(1), table) + "`", text)


def turn_antt(text, table):
    lines = []
    for line in text.split("\n"):
        at = line.find("--")
        while at > 0 and line[at - 1] not in " ":
            at = line.find("--", at + 1)
        lines.append(turn_tokens(line, table) if at < 0 else turn_tokens(line[:at], table) + turn_comment(line[at:], table))
    return "\n".join(lines)


def turn_rattle(text, table):
    """Comments between backticks, `ghost use` lines and clauses; the code is left alone."""
    out, depth = [], 0
    for line in text.split("\n"):
        if line.lstrip().startswith("//"):
            out.append(turn_comment(line, table))
            continue
        clause = depth or re.match(r"\s*(ghost|requires|ensures)\b", line)
        if clause:
            depth = max(0, depth + line.count("{") - line.count("}"))
            line = turn_tokens(line, table)
        out.append(line)
    return "\n".join(out)


def turn(path, table):
    with open(path, encoding="utf-8") as f:
        text = f.read()
    new = turn_rattle(text, table) if path.endswith(".rt") else turn_antt(text, table)
    if new != text:
        with open(path, "w", encoding="utf-8") as f:
            f.write(new)


def main():
    if len(sys.argv) > 1:
        with open(TABLE, encoding="utf-8") as f:
            table = json.load(f)
        for path in sys.argv[1:]:
            turn(path, table)
        return
    names = declared()
    table = respelled(names)
    # infix operators are declared with places for their arguments
    for old, new in list(table.items()):
        if "◌" in old:
            table[old.replace("◌", "")] = new.replace("◌", "")
    seen = {}
    for name in list(names) + [n for n in table if n not in names]:
        seen.setdefault(table.get(name, name), []).append(name)
    for new, olds in sorted(seen.items()):
        if len(olds) > 1:
            print("falls together:", new, "<-", ", ".join(olds))
    imported = set()
    for path in glob.glob("crates/**/*.antt", recursive=True) + glob.glob("crates/**/*.rt", recursive=True):
        for m in re.finditer(r"use ([\w.]+)\.\{([^}]*)\}", open(path, encoding="utf-8").read()):
            own = re.match(r"Rattle\.(\w+)\.", m.group(1))
            if not own or not os.path.isdir("crates/" + own.group(1)):
                imported |= {n.strip().split(" as ")[0] for n in m.group(2).split(",")}
    for name in sorted(imported & set(table)):
        print("a library's name too, so it stays:", name)
        del table[name]
    with open(TABLE, "w", encoding="utf-8") as f:
        json.dump(table, f, indent=0, sort_keys=True, ensure_ascii=False)
        f.write("\n")
    for path in glob.glob("crates/*/src/**/*.rt", recursive=True) + glob.glob("crates/*/specs/**/*.antt", recursive=True) \
            + glob.glob("crates/*/proofs/**/*.antt", recursive=True):
        turn(path, table)
    for old, new in sorted(table.items()):
        print(old, "->", new)


if __name__ == "__main__":
    main()
