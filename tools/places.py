#!/usr/bin/env python3
"""The places of docs/DESIGN-PASS.md in src/: `tools/places.py POINT [ROOT]`, a line each, and their number last.

Points 1 and 3 to 7 are lines that a pattern finds. Point 2 takes each function's body, puts a letter for each name in the order in which it
comes and 0 for each number, and prints the pairs whose bodies are then four fifths alike, and those of one name in one crate. Point 8 counts the
lines of the proofs of functions."""
import difflib
import pathlib
import re
import sys

POINTS = {
    1: [
        # enums of our own; the page tells which have the shape of Option or Result
        r"^\s*(pub )?enum ",
        # constants that stand for kinds
        r"^(pub )?const [A-Z]+: u8",
        # a flag in a struct with its value beside it
        r"^    (pub )?[a-z_]+: bool,$",
        # a number that says none, in words
        r"//.*\b(0|65,53[567])\b[^.]*\b(none|nothing)\b|//.*\bdatatype 0\b|//.*stands for every",
        # the same in code
        r"\b(tag|found|miss|value) ?(==|!=|:) ?6553[567]\b|\b65535 <|return 65536;",
        # rules, kinds, datatypes and refusals by number
        r"\b(record_kind\(\w+\)|k|rule|datatype|y) (==|!=|<|<=) \d+\b",
        r"(Refused|Fault|Misframed|Broken)\(\d+,|\b\w+_(rule|break)\(\w+, (book, )?\d, |find_record\(book, \d|Framed::Misframed",
        r"^\s+\d+ => |^        return [123];$|is_kind\(\w+, \d",
    ],
    3: [r"^\s*(while|loop)\b"],
    4: [
        r"fn (same\w*|\w*is_digit|digit\w*|printable|joined|wide|put_number|clear|pow2|bit|with_bit|echo|say\w*|never_a_field|is_version|fresh)\b",
        r"\bas (u8|u16|u32|u64|usize)\b",
    ],
    5: [r"length map\.old|(Declares|Pairs|Prepared \w+) map\.now", r"^(pub )?fn \w+(<[^>]*>)?\((?=(?:[^,]*,){5})", r"^(pub )?fn \w+\($"],
    6: [r"\[0u(8|16); \d+\]", r"^    (pub )?(at|start): usize,$"],
    7: [r"\b(rule: u16|all: bool)\b", r"breaks\("],
}


def sources(root):
    return sorted(p for p in root.glob("crates/*/src/**/*.rt"))


def lines(root, patterns):
    rx = [re.compile(p) for p in patterns]
    for path in sources(root):
        for n, line in enumerate(path.read_text().splitlines(), 1):
            clause = line.lstrip().startswith(("requires", "ensures")) and "map" not in line
            if not clause and any(r.search(line) for r in rx):
                yield f"{path.relative_to(root)}:{n}: {line.strip()}"


def functions(root):
    """Crate, place, name and body of each function; a body is the lines from one that is `{` to one that is `}`, both as deep as the `fn`."""
    for path in sources(root):
        name, inside, body = None, False, []
        for n, line in enumerate(path.read_text().splitlines(), 1):
            head = re.match(r"(\s*)(?:pub(?:\([a-z]+\))? )?fn (\w+)", line)
            if head:
                depth, name, at, inside, body = head[1], head[2], n, line.endswith("{"), []
            elif name and not inside and line == depth + "{":
                inside = True
            elif name and inside and line == depth + "}":
                yield path.parts[-3 if path.parent.name == "src" else -4], f"{path.relative_to(root)}:{at}", name, " ".join(body)
                name = None
            elif name and inside:
                body.append(line.strip())


def shape(body):
    """The body with a letter for each name, first come first named, and 0 for each number or text."""
    names = {}
    keep = {"if", "let", "mut", "while", "loop", "for", "in", "return", "else", "match", "true", "false", "as", "u8", "u16", "u32", "u64", "usize"}
    word = lambda m: m[0] if m[0] in keep else names.setdefault(m[0], f"N{len(names)}")
    return re.sub(r"[A-Za-z_]\w*", word, re.sub(r'b?"[^"]*"|\b\d[\d_]*(u\d+|usize)?\b', "0", re.sub(r"//.*", "", body)))


def twins(root):
    every = [(crate, f"{place}: {name}", name, shape(body).split()) for crate, place, name, body in functions(root)]
    for i, (crate, place, name, words) in enumerate(every):
        for other, there, namesake, others in every[i + 1 :]:
            alike = len(words) > 8 < len(others) and difflib.SequenceMatcher(None, words, others, autojunk=False).ratio() > 0.8
            if alike or (crate == other and name == namesake):
                yield f"{place} = {there}"


def proofs(root):
    for crate in sorted(root.glob("crates/*")):
        files = [p for p in crate.glob("proofs/**/*.antt") if p.parent.name != "proofs"]
        n = sum(len(p.read_text().splitlines()) for p in files)
        if n:
            yield f"{crate.name}: {len(files)} files, {n} lines"


def main():
    point = int(sys.argv[1])
    root = pathlib.Path(sys.argv[2] if len(sys.argv) > 2 else ".").resolve()
    found = list(twins(root) if point == 2 else proofs(root) if point == 8 else lines(root, POINTS[point]))
    print("\n".join(found))
    print(len(found))


main()
