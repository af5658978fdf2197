#!/usr/bin/env python3
"""Respells the definitions and lemmas of crates/ in the library's way: words in snake case, facts and types in camel case.

usage: python3 tools/respell.py            at the top of the repository; once, after the kit's own script

A name that joins a word to a type, as `each-AccessOp`, keeps its dash. A lemma that would have the name of a function
gets `_lem`. Names that Rattle makes (answers to goals) and everything in Rust code keep theirs. Stops before it writes
anything if two names would fall together.
"""

import os
import re
import sys

SIGNATURE = re.compile(r"^\s*(?:abbrev |unfoldable )?(?:pub )?([A-Za-z][\w']*(?:-[\w']+)+) :")
DECLARED = re.compile(r"^\s*(?:pub )?(?:data|record) ([A-Za-z][\w']*(?:-[\w']+)+)")
TOKEN = r"(?<![\w'-]){}(?![\w'-])"


def files(ending):
    for folder, _, names in os.walk("crates"):
        for name in sorted(names):
            if name.endswith(ending) and "/out/" not in folder + "/":
                yield os.path.join(folder, name)


def is_made(path):
    """Files whose definitions Rattle names."""
    return os.path.basename(path) in ("Answers.antt", "Invariants.antt")


def spelled(name):
    parts = name.split("-")
    if any(part[0].isupper() for part in parts[1:]):
        return name
    if parts[0][0].isupper():
        return "".join(part[0].upper() + part[1:] for part in parts)
    return "_".join(parts)


def main():
    texts = {}
    for ending in (".antt", ".rt"):
        for path in files(ending):
            with open(path, encoding="utf-8") as f:
                texts[path] = f.read()
    functions = set()
    for path, text in texts.items():
        if path.endswith(".rt"):
            functions.update(re.findall(r"\bfn (\w+)", text))
    renamed = {}
    for path, text in texts.items():
        if path.endswith(".antt") and not is_made(path):
            for line in text.split("\n"):
                found = SIGNATURE.match(line) or DECLARED.match(line)
                if found and spelled(found.group(1)) != found.group(1):
                    name = spelled(found.group(1))
                    proved = "/proofs/" in path and name in functions
                    renamed[found.group(1)] = name + "_lem" if proved else name
    together = {}
    for old, new in renamed.items():
        together.setdefault(new, []).append(old)
    trouble = [f"{olds} would all be {new}" for new, olds in together.items() if len(olds) > 1]
    for path, text in sorted(texts.items()):
        if not path.endswith(".antt"):
            continue
        for old, new in renamed.items():
            if re.search(TOKEN.format(re.escape(old)), text) and re.search(TOKEN.format(re.escape(new)), text):
                trouble.append(f"{path} has both {old} and {new}")
    if trouble:
        sys.exit("\n".join(trouble))
    every = re.compile(TOKEN.format("(" + "|".join(sorted(map(re.escape, renamed), key=len, reverse=True)) + ")"))
    for path, text in texts.items():
        turned = every.sub(lambda m: renamed[m.group(1)], text)
        if turned != text:
            with open(path, "w", encoding="utf-8") as f:
                f.write(turned)
    for old, new in sorted(renamed.items()):
        print(old, new)


main()
