#!/usr/bin/env python3
"""Lists by what more than spelling the files of crates/ differ between two commits, one of them before the port.

usage: python3 differences.py OLD NEW [--places]     at the top of a repository; respelled.tsv lies beside this script

The files are compared word by word, in four parts: specs/, the lemma files of proofs/, src/ with its contracts, and the edits of wrong/.
Not compared: imports, brackets and layout. Taken as the same: a word of OLD and the one that respelled.tsv gives for it; words that
differ only in - and _, in a capital inside a word for an underscore, or as getD and get_or; ′ and '; and of the contracts the old
`λ r. ⌜ .. r .. ⌝` and `.. result ..`, `now (x .entry)` and `x.old` or `x.now`, `now (x .exit)` and `x.new`.
For each part it prints how many kinds of differences there are, and each kind: how often it occurs, the old words, the new ones and
one of the files; with --places all of the files. It counts; a reader judges.
"""
import collections
import difflib
import os
import re
import subprocess
import sys

HERE = os.path.dirname(os.path.abspath(__file__))
WORD = re.compile(r'"(?:\\.|[^"\\])*"|[\w₀-₉\'?!-]+|\S')
USE = re.compile(r"(?m)^\s*(?:pub )?(?:ghost )?use [^{;\n]*(?:\{[^}]*\})?;?[^\n]*\n")
PARTS = {"specs": r"/specs/.*\.antt$", "lemmas": r"/proofs/[^/]*\.antt$", "src": r"/src/.*\.rt$", "edits": r"/wrong/.*\.edit$"}
# the words of the contracts' older form, and those that stand for them
MARKS = {"⌜", "⌝", "now", "entry", "old", "."}


def git(*words):
    return subprocess.run(["git", *words], stdout=subprocess.PIPE, check=True).stdout.decode("utf-8")


def renamed():
    found = collections.defaultdict(set)
    for line in open(f"{HERE}/respelled.tsv", encoding="utf-8"):
        old, new = line.rstrip("\n").split("\t")[:2]
        found[old].add(new)
    return {old: new.pop() for old, new in found.items() if len(new) == 1}


RENAMED = renamed()


def plain(word):
    if word.startswith('"'):
        return word
    word = RENAMED.get(word, word).replace("getD", "get_or").replace("-", "_")
    return re.sub(r"(?<=[a-z])(?=[A-Z])", "_", word).lower().replace("get_d_", "get_or_")


def words(text):
    text = USE.sub("", text.replace("′", "'").replace("″", "''"))
    return [plain(w) for w in WORD.findall(text) if w not in "()"]


def clauses(found):
    """The words of a file of src/, its contracts without the marks of the older form."""
    out, result, at = [], None, 0
    while at < len(found):
        word = found[at]
        if word == "λ" and found[at + 2 : at + 4] == [".", "⌜"]:
            result, at = found[at + 1], at + 4
            continue
        if word == "⌝":
            result = None
        if word not in MARKS:
            out.append("new" if word == "exit" else "result" if word == result else word)
        at += 1
    return out


def main(old, new, has_places):
    pairs = [l.split("\t") for l in git("diff", "--name-status", "-M40", old, new, "--", "crates").split("\n") if l]
    for part, pattern in PARTS.items():
        kinds, places = collections.Counter(), collections.defaultdict(set)
        for state, *files in pairs:
            if not re.search(pattern, files[0]):
                continue
            if state[0] in "AD":
                kinds[{"A": "only new", "D": "only old"}[state[0]], files[0]] += 1
                continue
            was, now = words(git("show", f"{old}:{files[0]}")), words(git("show", f"{new}:{files[-1]}"))
            if part in ("src", "edits"):
                was, now = clauses(was), clauses(now)
            for what, i, j, k, l in difflib.SequenceMatcher(None, was, now, autojunk=False).get_opcodes():
                if what != "equal":
                    kind = " ".join(was[i:j]), " ".join(now[k:l])
                    kinds[kind] += 1
                    places[kind].add(files[-1])
        print(f"{part}: {len(kinds)} kinds of differences, {sum(kinds.values())} places")
        for kind, many in kinds.most_common():
            said = sorted(places[kind])
            print(f"  {many}\t{kind[0][:300]}\t=>\t{kind[1][:300]}\t{' '.join(said if has_places else said[:1])}")


if __name__ == "__main__":
    if len(sys.argv) not in (3, 4) or sys.argv[3:] not in ([], ["--places"]):
        sys.exit(__doc__)
    main(sys.argv[1], sys.argv[2], len(sys.argv) == 4)
