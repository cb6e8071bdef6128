#!/usr/bin/env python3
"""Brings this repository's own names of specifications and proofs to today's spelling, once, after port.py.

usage: python3 tools/respell.py [FOLDER] [--dry]     at the top of the repository, or for the one in FOLDER; --dry: only says what it would leave

A fact is in upper camel case (`Hand-card` becomes `HandCard`), every other word in snake case (`suit-number` becomes `suit_number`).
It leaves alone: names that the check makes (goals, invariants, measures), names of std, a lemma about a type (`Sound-prop`), and a name
whose new spelling is one of std's or already stands for something else here; those it prints.
"""
import glob
import os
import re
import sys

EDGE = r"[^\s(){}\[\].,;:«»`]"  # what a name is made of
SIGNATURE = re.compile(r"^(\s*)((?:(?:unfoldable|abbrev|pub|data|record|ruleset) )*)(%s+)(?: [^:]*)? :(?: |$)(.*)" % EDGE)
ALIAS = re.compile(r" as (%s*-%s*)" % (EDGE, EDGE))
MADE = re.compile(r"^(loop|returns|invariant|decreases|overflow|bounds|nonzero|slice_bounds|offset_bounds)[-_]")
STD = re.compile(r"Rattle\.std\.[\w.]*\{([^}]*)\}")


def files(top, patterns):
    for pattern in patterns:
        for path in sorted(glob.glob(os.path.join(top, pattern), recursive=True)):
            if "/out/" not in path:
                yield path


def read(path):
    with open(path, encoding="utf-8") as f:
        return f.read()


def respelled(name):
    parts = name.split("-")
    if parts[0][:1].isupper():
        return "".join(p[:1].upper() + p[1:] for p in parts)
    return "_".join(parts)


def names_of(antt, sources):
    own, facts, std, taken = set(), set(), set(), set()
    for path in antt + sources:
        text = read(path)
        for group in STD.findall(text):
            std.update(w.split(" as ")[0].strip() for w in group.split(","))
        own.update(ALIAS.findall(text))
        taken.update(re.findall(r"%s+" % EDGE, re.sub(r"--.*|//.*", "", text)))
    for path in antt:
        for line in read(path).splitlines():
            m = SIGNATURE.match(line)
            if not m or m.group(4).startswith("goal."):
                continue
            words, name = m.group(2).split(), m.group(3)
            if "-" not in name.strip("-") or name.startswith("--"):
                continue
            own.add(name)
            if name[0].isupper() and ("abbrev" in words or "record" in words or "data" in words or "unfoldable" in words):
                facts.add(name)
    own = {n for n in own if not MADE.match(n) and n not in std and (n in facts or not n[0].isupper())}
    return own, std, taken


def main(top, dry=False):
    antt = list(files(top, ["crates/*/specs/**/*.antt", "crates/*/proofs/**/*.antt"]))
    sources = list(files(top, ["crates/*/src/**/*.rt"]))
    pages = list(files(top, ["README.md", "docs/*.md", "crates/*/must-fail/*.edit"]))
    pages = [p for p in pages if os.path.basename(p) not in ("PORT.md",)]
    own, std, taken = names_of(antt, sources)
    to, left = {}, []
    for name in sorted(own):
        new = respelled(name)
        if new in std or new in to.values() or (new in taken and new not in SAME):
            left.append((name, new))
        else:
            to[name] = new
    token = re.compile(r"(?<!%s)(%s)(?!%s)" % (EDGE, "|".join(re.escape(n) for n in sorted(to, key=len, reverse=True)), EDGE))
    for path in antt + sources + pages:
        old = read(path)
        new = token.sub(lambda m: to[m.group(1)], old)
        if new != old and not dry:
            with open(path, "w", encoding="utf-8") as f:
                f.write(new)
    for name, new in left:
        print(f"left: {name}: {new} stands already")
    print(f"{len(to)} names respelled, {len(left)} left")


# New spellings that stand already as the name of a function or a parameter of src/, or of a module, which is another kind of name:
# a definition may have the name of the function that it mirrors.
SAME = {
    "OtherSide", "by_advice", "by_card", "card_at", "cards_in", "cards_of", "has_suit", "in_play", "is_upheld", "left_with", "low_after",
    "most_cards", "next_failing", "played_after", "rank_of", "reply_to", "table_after", "trick_of", "tricks_left", "trump_word", "worth_by",
    "worth_of",
}

if __name__ == "__main__":
    main(sys.argv[1] if len(sys.argv) > 1 else ".", "--dry" in sys.argv)
