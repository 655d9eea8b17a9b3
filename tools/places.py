#!/usr/bin/env python3
"""tools/places.py COMMIT: places of src/ that may want another form (docs/DESIGN-PASS.md): functions whose bodies have one shape, facts in the `requires` of
three functions or more, and parameters that travel together through eight functions or more."""
import collections
import re
import subprocess
import sys

WORDS = {"if", "while", "for", "in", "return", "let", "mut", "match", "as", "else", "true", "false"}


def sources(commit):
    names = subprocess.run(["git", "ls-tree", "-r", "--name-only", commit, "crates"], capture_output=True, text=True, check=True).stdout.split()
    for name in names:
        if re.match(r"crates/\w+/src/.*\.rt$", name):
            yield name.split("/")[1], subprocess.run(["git", "show", f"{commit}:{name}"], capture_output=True, text=True, check=True).stdout


def main(commit):
    shapes, facts, pairs = (collections.defaultdict(list) for _ in range(3))
    for crate, text in sources(commit):
        # a body as tokens, every name and number the same
        for m in re.finditer(r'^( *)(?:pub )?(?:extern "C" )?fn (\w+)[\s\S]*?^\1\{\n([\s\S]*?)^\1\}', text, re.M):
            tokens = re.findall(r"[A-Za-z_]\w*|\d+|[^\s\w]", re.sub(r"//[^\n]*", "", m[3]))
            if len(tokens) >= 8:
                shapes[" ".join(x if x in WORDS or not re.match(r"\w", x) else "_" for x in tokens)].append(f"{crate}/{m[2]}")
        for m in re.finditer(r"fn (\w+)(?:<[^>]*>)?\(([^)]*)\)([^\n]*\n)((?:[ \t]*(?:requires|ensures)[^\n]*\n)*)", text):
            for line in m[4].splitlines():
                if "requires" in line:
                    for word in set(re.findall(r"\b[A-Z]\w+\b", line)):
                        facts[word].append(f"{crate}/{m[1]}")
            names = sorted(p.split(":")[0].strip() for p in m[2].split(",") if ":" in p)
            for i, one in enumerate(names):
                for other in names[i + 1 :]:
                    pairs[one, other].append(f"{crate}/{m[1]}")
    print("bodies of one shape")
    for _, names in shapes.items():
        if len(names) > 1:
            print("  ", len(names), *names)
    print("facts that three functions or more require")
    for fact, names in sorted(facts.items(), key=lambda x: -len(x[1])):
        if len(names) >= 3:
            print("  ", len(names), fact, *names)
    print("parameters that travel together")
    for pair, names in sorted(pairs.items(), key=lambda x: -len(x[1])):
        if len(names) >= 8:
            print("  ", len(names), *pair)


main(sys.argv[1])
