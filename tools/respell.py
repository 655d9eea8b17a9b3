#!/usr/bin/env python3
"""Respells this repository's own definitions and lemmas as today's Rattle does: words in snake case, a dash between two names.

usage: tools/respell.py [--dry]     at the top of the repository, once, after port.py

Functions of src/, exported C names, strings, inputs and outputs keep their names. It goes by names: what it takes for a name of this repository is what
an .antt file of specs/ or proofs/ declares (functions' own goals apart), with the fields of records. It stops where two names would fall together.
"""
import collections
import os
import re
import sys

DECLARED = re.compile(r"^( *)((?:abbrev |pub |unfoldable )*)(?:record |data )?([^\s(){}\[\],;:=]+)(?= (?:[({].*)?: )")
# no name of a declaration: what a line that goes on may begin with
WORDS = {"let", "in", "elim", "where", "module", "use", "open", "pub", "λ", "--", "→", "|", "∙", "∷", "with"}
# words of the library that stand in names beside others
LIBRARY = set("length append drop take map filter sum replicate reverse suc mod min max get_or set insert remove swap concat fold count zip".split())


def files(*ends):
    for d, dirs, fs in os.walk("crates"):
        dirs[:] = sorted(x for x in dirs if x not in ("out", "must-fail") or x == "must-fail")
        dirs[:] = [x for x in dirs if x != "out"]
        for f in sorted(fs):
            if f.endswith(ends):
                yield os.path.join(d, f)


def own_goal_file(path):
    """A file that answers the goals of one function: its names are the check's."""
    return os.path.basename(path) == "Proof.antt"


def declared():
    names, definitions = collections.Counter(), set()
    for p in files(".antt"):
        if own_goal_file(p):
            continue
        for line in open(p, encoding="utf-8"):
            m = DECLARED.match(line)
            if not m or line.lstrip().startswith(("--", "use ", "pub use ")) or m.group(3) in WORDS:
                continue
            names[m.group(3)] += 1
            if "/specs/" in p and not m.group(1):
                definitions.add(m.group(3))
    return names, definitions


def snake(word):
    if not word or not (word[0].islower()):
        return word
    return re.sub(r"(?<=[a-z0-9'₀-₉])([A-Z])(?=[a-z0-9]|$)", lambda m: "_" + m.group(1).lower(), word)


def respelled(name, known):
    out = None
    for half in name.split("⇔"):
        parts = [snake(x) for x in half.split("-")]
        text = parts[0]
        for left, right in zip(parts, parts[1:]):
            both = (left in known or left[:1].isupper()) and (right in known or right[:1].isupper())
            text += ("-" if both else "_") + right
        out = text if out is None else out + "⇔" + text
    return out


# names that would fall together with another, told apart by hand: a lemma about a definition, a field beside a definition
APART = {
    "event-tables": "event_table_kinds",
    "path-tables": "path_table_kinds",
    "found-from": "found_from_lem",
    "has-bit": "has_bit_lem",
    "in-range": "is_in_range",
    "is_below": "is_below_lem",
    "last-state": "last_state_lem",
    "no-shared-factor": "shares_no_factor",
    "plain-counts": "plain_counts_are",
    "polynomial-line": "polynomial_line_lem",
    "undetected-counts": "undetected_counts_are",
    "written_as": "written_as_lem",
    "is_digit": "digit_fits",
    "at-hand": "at_hand_lem",
    "decided-last": "decided_last_lem",
    "divided-counts": "divided_counts_lem",
    "divided-of": "divided_of_lem",
    "first-state": "first_state_lem",
    "of-weight": "of_weight_lem",
    "only-low": "only_low_lem",
    "state-at": "state_at_lem",
    "state-of": "state_of_lem",
    "words-at": "words_at_lem",
    "work-size": "work_size_is",
    "row-answer": "row_answer_lem",
}
# of these the crate alone whose lemma or field it is: elsewhere the name is a function's
OF_CRATE = {"is_below": "sort", "written_as": "text", "is_digit": "radix"}
# one of them is a local or a field of a file that does not know the other
MEET = {"at_most", "left_over", "one_more", "is_below_lem", "written_as_lem", "digit_fits"}
MADE = re.compile(r"^(loop|invariant|decreases|need|Need|statement)(-|$)|-requires$")
CHARS = r"\w'⇔⇒₀-₉\-"


def imported():
    """What the files take from libraries that are not this repository's: those names keep their spelling."""
    own, names = set(os.listdir("crates")), set()
    for p in files(".antt", ".rt"):
        for m in re.finditer(r"^\s*(?:pub |unfoldable |ghost )*use ([^\s{;]+?)\.\{([^}]*)\}", open(p, encoding="utf-8").read(), re.M):
            parts = m.group(1).split(".")
            if not (parts[0] == "Rattle" and parts[1] in own):
                names |= {it.strip().split(" as ")[0] for it in m.group(2).split(",")}
    return names


def respelling():
    """Each name that changes, with its new spelling; and the new names that more than one would get."""
    names, definitions = declared()
    known = {snake(d) for d in definitions if "-" not in d} | LIBRARY
    new, theirs = {}, imported()
    for n in names:
        if n in theirs or "◌" in n or n.startswith("-") or n.endswith("-") or MADE.search(n):
            continue
        r = APART.get(n) or respelled(n.replace("getD", "get_or"), known)
        if r != n:
            new[n] = r
    back = collections.defaultdict(set)
    for n in names:
        back[new.get(n, n)].add(n)
    return new, {k: sorted(v) for k, v in back.items() if len(v) > 1 and k not in MEET}


def turn(text, new, word, path=""):
    parts = path.split(os.sep)
    crate = parts[1] if parts[0] == "crates" else None

    def one(m):
        name = m.group(0)
        if OF_CRATE.get(name, crate) != crate or name in OF_CRATE and path.endswith(".rt"):
            return name
        start = m.string.rfind("\n", 0, m.start()) + 1
        # an adjective in a comment, and no field
        if name == "tail-biting" and m.string[start : m.start()].lstrip().startswith(("--", "//")):
            return name
        return new[name]

    return word.sub(one, text)


def turned(path, text, new, word):
    if path.endswith(".md"):
        return re.sub(r"`[^`\n]*`", lambda m: turn(m.group(0), new, word), text)
    if path.endswith(".rt"):
        return re.sub(r'b?"(?:[^"\\]|\\.)*"|[^"]+|"', lambda m: m.group(0) if m.group(0).startswith(('"', 'b"')) else turn(m.group(0), new, word, path), text)
    return turn(text, new, word, path)


def main():
    new, bad = respelling()
    for k, v in sorted(bad.items()):
        print(f"fall together: {k}: {v}")
    print(f"{len(new)} names respelled")
    if "--names" in sys.argv:
        for n in sorted(new):
            print(f"{n} {new[n]}")
    if "--dry" in sys.argv or bad:
        return 1 if bad else 0
    some = "|".join(sorted(map(re.escape, new), key=len, reverse=True))
    word = re.compile(f"(?<![{CHARS}])(?:{some})(?![{CHARS}])")
    pages = ["README.md"] + sorted(os.path.join("docs", f) for f in os.listdir("docs") if f.endswith(".md"))
    for p in list(files(".antt", ".rt", ".edit")) + pages:
        old = open(p, encoding="utf-8").read()
        text = turned(p, old, new, word)
        if text != old:
            open(p, "w", encoding="utf-8").write(text)
    return 0


if __name__ == "__main__":
    raise SystemExit(main())
