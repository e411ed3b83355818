#!/usr/bin/env python3
"""Gives the repository's own definitions and lemmas the spelling of today's Rattle: words in snake case, a prime as an apostrophe.

usage: tools/respell.py        at the top of the repository, once, right after port.py

What it takes as its own: each name that is not imported from a library. Types and modules keep their capitals, and what Rattle
makes of a function's code is left alone in the proof that cites it. docs/PORT.md says what it did.
"""

import glob
import os
import re

WORD = r"[^\s(){}.;,@\"«»\[\]\\:◌`|]+"
# Names that would be one name in snake case: the definition takes it, and the lemma, the field or the local name takes another.
TOGETHER = {
    "same_ends": "same_ends_lem",
    "end-one": "end_one_lem",
    "end-two": "end_two_lem",
    "stations-verdict": "stations_verdict_lem",
    "lines-verdict": "lines_verdict_lem",
    "stood-before": "stood_before_here",
    "good-ends": "good_ends_lem",
    "end_read": "end_read_lem",
    "records-read": "records_read_lem",
    "kept_of": "kept_of_lem",
    "is-gone": "gone_is",
    "in-play": "in_play_lem",
    "of-rank": "of_rank_lem",
    "keep-example": "keep_example_lem",
    "weak-spot": "weak_spot_lem",
    "is-ready": "is_ready_there",
    "isReady": "is_ready_next",
}
# What port.py turned in the sources, in the must-fail edits too, which it leaves alone.
IN_EDITS = [
    ("getD", "get_or"),
    ("isRefused", "is_refused"),
    ("upTo", "up_to"),
    ("orderOf", "order_of"),
    ("firstLines", "first_lines"),
    ("pairAt", "pair_at"),
    ("″", "''"),
    ("′", "'"),
    ("(s .ranks)", "s.ranks"),
    ("(round .ranks)", "round.ranks"),
    ("round .ranks", "round.ranks"),
    ("round .order", "round.order"),
    ("s .orders", "s.orders"),
    ("≡ one_round n lines", "≡ (one_round n lines"),
]
# The module that Rattle now makes itself, and the name that ours has instead.
MODULE = ("Contracts", "Allowed")


def read(path):
    with open(path, encoding="utf-8") as f:
        return f.read()


def write(path, text):
    if text != read(path):
        with open(path, "w", encoding="utf-8") as f:
            f.write(text)


def is_odd(name):
    return re.match(r"[a-zℕ]", name) and re.search(r"-|[a-z0-9][A-Z]|′", name)


def snake(name):
    if name in TOGETHER:
        return TOGETHER[name]
    name = re.sub(r"([a-z0-9])([A-Z]+)", lambda m: m[1] + "_" + m[2].lower(), name.replace("′", "'"))
    return name.replace("-", "_")


def without_comments(text):
    return re.sub(r"(?m)(?<!\S)--[^\n]*", "", text)


def of_function(path):
    """A file on one function's code, below proofs/NAME/."""
    return re.search(r"/proofs/[^/]+/[^/]+$", path) is not None


def edit_turned(path, text):
    """The edit of today's text: an import that it added is added to today's line of imports."""
    for old, new in IN_EDITS:
        text = text.replace(old, new)
    lines = text.split("\n")
    for i, line in enumerate(lines):
        if line.startswith("old: use ") and lines[i + 1].startswith("new: use "):
            names = [set(re.findall(r"[^\s{},]+", re.search(r"\{(.*)\}", it)[1].replace("_", "◌"))) for it in (line, lines[i + 1])]
            file = next(it[6:] for it in lines if it.startswith("file: "))
            front = "use Rattle.std.specs.Prelude.{"
            today = next(it for it in read(os.path.join(os.path.dirname(os.path.dirname(path)), file)).split("\n") if it.startswith(front))
            first = today[len(front) :].split(",")[0]
            lines[i] = f"old: {front}{first},"
            lines[i + 1] = f"new: {front}{', '.join(sorted(names[1] - names[0]))}, {first},"
    return "\n".join(lines)


def main():
    crates = {line.split(":")[0].strip() for line in read("crates.txt").splitlines() if line.strip() and line[0] != "#"}
    files = sorted(glob.glob("crates/*/specs/**/*.antt", recursive=True) + glob.glob("crates/*/proofs/**/*.antt", recursive=True))
    library, own, declared = set(), set(), set()
    for path in files:
        text = without_comments(read(path))
        for use in re.finditer(r"(?m)^\s*(?:pub )?use (\S+?)(?:\.\{([^}]*)\})?(?: as \S+)?$", text):
            head = re.match(r"Rattle\.(\w+)", use[1])
            if not (head and head[1] in crates):
                for name in (use[2] or "").split(","):
                    library.update(name.split(" as ")[0].strip().split("."))
        if of_function(path):
            continue
        body = re.sub(r"(?m)^\s*(?:pub )?use .*$", "", text)
        own.update(re.findall(WORD, body))
        declared.update(re.findall(r"(?m)^\s*(?:(?:pub|abbrev|unfoldable|opaque) )*(" + WORD + r")\s*[:({]", body))
        declared.update(re.findall(r"◌(" + WORD + r")◌", body))
    names = {it: snake(it) for it in own if (is_odd(it) or it in TOGETHER) and it not in library}
    of_code = {it: new for it, new in names.items() if it in declared}

    def turned(text, table):
        return re.sub(WORD, lambda m: table.get(m[0], m[0]), text)

    camel = {it: new for it, new in names.items() if re.search(r"[a-z0-9][A-Z]", it)}

    def line_turned(line, table):
        at = re.search(r"(?<!\S)--\s", line)
        if not at:
            return turned(line, table)
        return turned(line[: at.start()], table) + comment(line[at.start() :])

    def comment(text):
        return re.sub(r"`[^`]*`", lambda m: turned(m[0], names), turned(text, camel))

    def module(text):
        return re.sub(r"\b(specs[./]|mod )" + MODULE[0] + r"\b", lambda m: m[1] + MODULE[1], text)

    for path in files:
        table = names
        if of_function(path):
            goals = set(re.findall(r"(?m)^(\S+) : tie\.", read(path)))
            table = {it: new for it, new in of_code.items() if it not in goals}
        write(path, module("\n".join(line_turned(line, table) for line in read(path).split("\n"))))
    for path in glob.glob("crates/*/src/**/*.rt", recursive=True):
        lines = [comment(it) if it.lstrip().startswith("//") else turned(it, of_code) for it in read(path).split("\n")]
        write(path, "\n".join(lines))
    for path in glob.glob("crates/*/must-fail/*.edit"):
        text = module("\n".join(it if it.startswith("#") else turned(it, of_code) for it in read(path).split("\n")))
        write(path, edit_turned(path, text))
    for path in glob.glob("docs/**/*.md", recursive=True) + glob.glob("*.md") + ["rust/tests/promises.rs"]:
        write(path, module(comment(read(path))))
    was = f"crates/promises/specs/{MODULE[0]}.antt"
    if os.path.exists(was):
        os.rename(was, f"crates/promises/specs/{MODULE[1]}.antt")
    for old in sorted(names):
        print(f"{old} -> {names[old]}")


if __name__ == "__main__":
    main()
