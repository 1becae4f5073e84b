#!/usr/bin/env python3
"""Brings this repository's own definitions and lemmas to snake case, once, after the kit's port.py.

usage: python3 tools/respell.py [--dry]     at the top of the repository

Names that begin with a small letter become words in snake case; types and modules keep their capitals. Functions of src/, strings, inputs
and outputs are not touched. A name is turned where the file declares it or takes it from a crate of this repository; a name that would
fall together with another one in some file is listed, and nothing is written. OTHERS says which name such a one gets.
"""

import os
import re
import sys

NAME = r"[^\s(){}\[\];,.\"]+"
CHAIN = re.compile(rf"{NAME}(?:\.{NAME})*")
DECLARES = re.compile(rf"^\s*(?:(?:pub|abbrev|unfoldable)\s+)*({NAME})\s+:\s")
FIELD = re.compile(rf"^\s+pub ({NAME}) : ")
OTHERS = {
    ("asking.proofs.Alone", "in_order"): "in_order_lem",
    ("asking.proofs.FirstRow", "row_count"): "row_count_lem",
    ("asking.proofs.FirstRow", "instance-row"): "instance_row_lem",
    ("book.proofs.Look", "is-kind"): "is_kind_lem",
    ("book.proofs.Look", "is-message"): "is_message_lem",
    ("bridge.proofs.Demand3", "on-answer"): "on_answer_lem",
    ("bridge.proofs.Demand3", "room-for"): "room_for_lem",
    ("bridge.proofs.Sees", "field-size"): "field_size_lem",
    ("message.specs.NearMisses", "near-misses"): "near_misses_lem",
    ("reader.proofs.Framing", "cut-in"): "cut_in_lem",
    ("reader.proofs.Heads", "leading-digits"): "leading_digits_lem",
    ("reader.proofs.ListLaws", "list_at"): "list_at_lem",
}
SKIP = {"λ", "let", "use", "data", "record", "module", "open", "elim", "true", "false"}


def respelled(name, module=""):
    """The word in snake case; a dash beside an operator stays."""
    other = OTHERS.get((module.removeprefix("Rattle."), name))
    if other:
        return other
    if not re.match(r"[a-z]", name) or not re.fullmatch(r"[\w'\-]+", name, re.ASCII):
        return name
    name = re.sub(r"(?<=[a-z0-9])([A-Z])(?=[a-z0-9])", lambda m: "_" + m[1].lower(), name)
    name = re.sub(r"(?<=[a-z0-9])([A-Z]+)(?![a-z0-9])", lambda m: "_" + m[1].lower(), name)
    return re.sub(r"_+", "_", name.replace("-", "_"))


def files(ending):
    for folder, dirs, names in os.walk("crates"):
        dirs[:] = sorted(d for d in dirs if d not in ("out", "must-fail"))
        for n in sorted(names):
            if n.endswith(ending):
                yield os.path.join(folder, n)


def module_of(path):
    """crates/a/specs/B.antt is Rattle.a.specs.B."""
    parts = path[: -len(".antt")].split("/")[1:]
    return "Rattle." + ".".join(parts)


def is_walk(path):
    """A function's proof: what it declares is named after the function's goals."""
    return path.endswith("/Proof.antt")


def declared(text):
    found = set()
    for line in text.splitlines():
        m = DECLARES.match(line)
        if m and m[1] not in SKIP and not line.lstrip().startswith(("--", "let ", "use ")):
            found.add(m[1])
    return found


IMPORT = re.compile(r"^(?:ghost |pub )*use (Rattle\.(\w+)\.[^\s;{]+?)(?:\.\{([^}]*)\})?(?: as (\S+?))?;?\s*$", re.M)


def scope(path, text, own, names):
    """Which words of this file are this repository's, and which words name its modules."""
    words, aliases = {}, {}
    if path.endswith(".antt") and not is_walk(path):
        for n in own[module_of(path)]:
            words[n] = respelled(n, module_of(path))
    for m in IMPORT.finditer(text):
        module, crate, items, alias = m.groups()
        if crate not in names:
            continue
        if alias:
            aliases[alias] = module
        elif not items:
            aliases[module.split(".")[-1]] = module
        for item in (items or "").split(","):
            parts = item.split(" as ")
            if parts[0].strip() in own.get(module, ()):
                words[parts[0].strip()] = respelled(parts[0].strip(), module)
                if len(parts) == 2:
                    words[parts[1].strip()] = respelled(parts[1].strip())
    return words, aliases


def turn(text, words, aliases, own, fields):
    def chain(m):
        parts = m[0].split(".")
        i = 0
        if parts[0] == "Rattle":
            for n in range(len(parts), 1, -1):
                if ".".join(parts[:n]) in own:
                    i = n
                    break
            else:
                return m[0]
            module = ".".join(parts[:i])
            if i < len(parts) and parts[i] in own[module]:
                parts[i] = respelled(parts[i], module)
            i += 1
        elif parts[0] in aliases and len(parts) > 1:
            if parts[1] in own.get(aliases[parts[0]], ()):
                parts[1] = respelled(parts[1], aliases[parts[0]])
            i = 2
        else:
            parts[0] = words.get(parts[0], parts[0])
            i = 1
        if parts[0] not in ("c", "l"):
            for k in range(i, len(parts)):
                if parts[k] in fields:
                    parts[k] = respelled(parts[k])
        return ".".join(parts)

    return CHAIN.sub(chain, text)


def spans(text):
    """The parts of a .rt file that are antt: ghost use lines, clauses, ghost items."""
    for m in re.finditer(r"^\s*ghost use [^;]*;", text, re.M):
        yield m.span()
    for m in re.finditer(r"\b(?:requires|ensures)\*?(?: \w+)? \{", text):
        depth, i = 1, m.end()
        while depth:
            depth += {"{": 1, "}": -1}.get(text[i], 0)
            i += 1
        yield m.end(), i - 1


def turned(path, text, own, names, fields):
    words, aliases = scope(path, text, own, names)
    if path.endswith(".antt"):
        out = []
        for line in text.splitlines(keepends=True):
            code, dash, comment = line.partition("--") if line.lstrip().startswith("--") else (line, "", "")
            comment = re.sub(r"`([^`]*)`", lambda m: "`" + turn(m[1], words, aliases, own, fields) + "`", comment)
            out.append(turn(code, words, aliases, own, fields) + dash + comment)
        return "".join(out), words
    parts, at = [], 0
    for a, b in sorted(spans(text)):
        parts += [text[at:a], turn(text[a:b], words, aliases, own, fields)]
        at = b
    return "".join(parts) + text[at:], words


def tokens(path, text):
    """The words that a name could fall together with; in a .rt file a clause's word hides nothing but a parameter."""
    if path.endswith(".rt"):
        return set(re.findall(r"\b(\w+)\s*:", text))
    found = set()
    for line in text.splitlines():
        if not line.lstrip().startswith("--"):
            for m in CHAIN.finditer(line):
                found.add(m[0].split(".")[0])
    return found


def main(argv):
    names = {d for d in os.listdir("crates")}
    paths = list(files(".antt")) + list(files(".rt"))
    text = {}
    for p in paths:
        with open(p, encoding="utf-8") as f:
            text[p] = f.read()
    own, fields = {}, set()
    for p in paths:
        if p.endswith(".antt") and not is_walk(p):
            own[module_of(p)] = declared(text[p])
            fields |= {m[1] for m in map(FIELD.match, text[p].splitlines()) if m}
    clashes = 0
    new = {}
    for p in paths:
        new[p], words = turned(p, text[p], own, names, fields)
        there = tokens(p, text[p])
        back = {}
        for old, word in words.items():
            if old != word:
                back.setdefault(word, set()).add(old)
                if word in there and words.get(word, word) == word:
                    back[word].add(word)
        for word, olds in back.items():
            if len(olds) > 1:
                clashes += 1
                print(f"clash: {p}: {' '.join(sorted(olds))} would be {word}")
    changed = sum(new[p] != text[p] for p in paths)
    if clashes:
        print(f"respell: {clashes} clashes; nothing written")
        return 1
    if "--dry" not in argv:
        for p in paths:
            if new[p] != text[p]:
                with open(p, "w", encoding="utf-8") as f:
                    f.write(new[p])
    print(f"respell: {changed} files")
    return 0


if __name__ == "__main__":
    raise SystemExit(main(sys.argv[1:]))
