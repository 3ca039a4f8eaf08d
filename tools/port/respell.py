#!/usr/bin/env python3
"""Spells the repository's own definitions, lemmas, fields and local names as port.py spelled some of them: words in snake case.

usage: respell.py [--map FILE] [--check] [--list]
       respell.py --filter FILE <TEXT >TEXT   turns each word of a text by the map in FILE: a patch or a script's replacements that were made
                                              on the text before. A word with two new names gets the plain one, and is named on stderr.
       at the top of the repository, once, right after the commit of port.py. It writes files in place and prints the map of names,
       old -> new, with where each is declared; FILE gets it too, a row for each: old, new, and where, with tabs between them. A second run changes nothing.
       --check: writes nothing but FILE. --list: prints also what it leaves as it is.

What turns: in specs/ and proofs/ each name that is declared there (or bound there, as a variable) and begins with a small letter:
a dash becomes '_', a capital behind a small letter '_' and the small letter, 'getD' 'get_or' (port.py's own rule for own names).
A capital that stands behind a dash stays, as it names a type or a fact (map-In: map_In). A definition whose value is a type gets a
capital (TYPES below). What follows: imports of these names, the clauses and ghost lines of src/, and fields behind a dot.
What stays: names of the library (those that a file brings in from std, mathlib, lib, ..), names that begin with a capital, operators,
names that a proof below proofs/FUNCTION declares or that Rattle made there, the code of src/, strings, comments but for their words
that are names in the same file, every other file. The two files specs/Contracts.antt become specs/TheirContracts.antt ("MODULES").
Where two names of one file would become one, it lists them, writes nothing and ends with status 2: give one of them another name in
OTHERWISE below.
"""
import collections
import functools
import os
import re
import sys

WORD = re.compile(r'[^\s(){}.;,@"«»]+')
QUIET = re.compile(r'"(?:[^"\\\n]|\\.)*"|(?<![^\s(){}.;,@"«»])--[^\n]*|\{-.*?-\}', re.S)
BLOCK = re.compile(r"(?<![^\s(){};,])(?:where|do|let|mutual) +(?=\S)")
RUST = re.compile(r"""//[^\n]*|/\*.*?\*/|[bc]?r(#*)".*?"\1|[bc]?"(?:\\.|[^"\\])*"|b?'(?:\\u\{[0-9a-fA-F_]+\}|\\x..|\\.|[^'\\])'|'?\w+|\s+|.""", re.S)
CLAUSE = re.compile(r"(?:requires|ensures|decreases|invariant)\s*\*?\s*(?:\w+\s*)?\{|ghost\s*(?:\w+\s*(?::\s*(?:(?:owns|lends)\s*)?|=\s*))?\{")
GHOST_USE = re.compile(r"ghost\s+use\b[^;]*;")
USE = re.compile(r"(?m)^( *)((?:pub )?use )([^\s{(]+?)(\.\{([^}]*)\})?((?: as [^\s;{}]+)?)[ \t]*$")
# What stands behind the name of a call in a function's proof: such a name Rattle made, and port.py's own scripts mend it.
OF_A_CALL = re.compile(r"\.(?:ensures|result|auto|requires|args|before|kept|last|raw)(?![\w-])")
FIELD = re.compile(r"(?m)^ +pub ([^\s(){}.;,@\"«»:]+)(?: [^\n]*?)? : ")
EQUALS = re.compile(r"\s*=(?![^\s])")
CALLED = re.compile(r"\s*(?:::)?\s*[(<]|::")
DEFAULT = re.compile(r"=\s*\{")
TACTIC = re.compile(r"#!?\[tactic\([^\]]*\]")
OPS = "◌⟦⟧→←↔"
# In each table below: the file that declares a name, the name, and the new one. It follows in the files that import it from there.
# Definitions whose value is a type.
TYPES = {
    ("crates/constraint/proofs/Cycle.antt", "gone"): "Gone",
    ("crates/answer_boxes/proofs/Counting.antt", "counts"): "Counts",
    ("crates/answer_boxes/proofs/Finding.antt", "looks"): "Looks",
}
# Names that would fall together with another of the same file: a lemma called as its function gets '_lem'.
OTHERWISE = {
    ("crates/solve_quiet/proofs/Verdict.antt", "form-of"): "form_of_lem",
    ("crates/check_apart/specs/Next.antt", "names-of"): "names_of_lem",
    ("crates/mem_numbers/specs/Numbers.antt", "value-at"): "value_at_lem",
    ("crates/read_lexed/specs/Codes.antt", "token-at"): "token_at_lem",
    ("crates/read_lexed/specs/Once.antt", "token-no"): "token_no_lem",
    ("crates/mem_copies/specs/Open.antt", "openLevel"): "open_level_word",
    ("crates/rule_ranges/proofs/Ranged.antt", "apps-of"): "apps_of_stores",
    ("crates/solve_tells/proofs/Trails.antt", "vars-of"): "vars_of_lem",
    ("crates/solve_classes/proofs/Linking.antt", "apps-at"): "apps_at_lem",
    ("crates/work_judge/proofs/Starting.antt", "is-used"): "is_used_here",
}
# Module files that get another name, since Rattle makes a module so named.
MODULES = {
    "crates/read_emits/specs/Contracts.antt": "TheirContracts",
    "crates/read_scopes/specs/Contracts.antt": "TheirContracts",
}


def files_below(root, end):
    for folder, dirs, files in os.walk(os.path.join(root, "crates")):
        dirs[:] = sorted(d for d in dirs if d not in ("out", ".git"))
        for it in sorted(files):
            if it.endswith(end):
                yield os.path.relpath(os.path.join(folder, it), root)


def blank(text):
    return QUIET.sub(lambda m: re.sub(r"[^\n]", " ", m[0]), text)


def snake(word):
    new = re.sub(r"getD(?![a-z])", "get_or", word)
    new = re.sub(r"(?<=[a-z0-9])[A-Z]", lambda m: "_" + m[0].lower(), new)
    return new.replace("-", "_")


@functools.lru_cache(maxsize=None)
def turns(word):
    """Whether a word is one that the rule respells."""
    if not word or not ("a" <= word[0] <= "z" or word[0].isdigit() and "-" in word):
        return False
    if any(c in word for c in OPS) or not re.search(r"[a-z]", word):
        return False
    return bool(re.search(r"[\w?'₀-₉]-\w", word) or re.search(r"[a-z0-9][A-Z]", word))


def is_of_function(path):
    """crates/c/proofs/f/Proof.antt: a proof of one function."""
    return re.match(r"crates/[^/]+/proofs/[^/]+/", path) is not None


class Tree:
    def __init__(self, root):
        self.root = root
        self.crates = {c for c in os.listdir(f"{root}/crates") if os.path.isdir(f"{root}/crates/{c}")}
        self.text = {}
        for path in [*files_below(root, ".antt"), *files_below(root, ".rt")]:
            with open(f"{root}/{path}", encoding="utf-8") as f:
                self.text[path] = f.read()

    def is_own(self, path):
        parts = path.split(".")
        return parts[0] == "Rattle" and len(parts) > 1 and parts[1] in self.crates

    def uses(self, code):
        """The imports of a text: path, names, and whether the path is of this repository."""
        for m in USE.finditer(code):
            yield m[3], WORD.findall(m[5] or ""), self.is_own(m[3]), m[6][4:]
        for m in GHOST_USE.finditer(code):
            path, _, items = m[0].rstrip(";").split(None, 2)[2].partition(".{")
            yield path, WORD.findall(items), self.is_own(path), ""

    def module(self, path):
        """Rattle.c.specs.M of crates/c/specs/M.antt."""
        return "Rattle." + path[len("crates/") :].rsplit(".", 1)[0].replace("/", ".")


def declared_in(code):
    """The names that a text declares (a declaration may have several names before its colon)."""
    found = set()
    for m in re.finditer(r"(?m)^ *(?:(?:pub|abbrev|unfoldable|opaque|private|data|record|let) +)*([^\s(){}.;,@\"«»:]+)((?: [^\s:]+)*?) :(?= |$)", USE.sub(" ", code)):
        found.add(m[1])
        found.update(WORD.findall(m[2]))
    for m in re.finditer(r"\blet ([^\s(){}.;,@\"«»:]+)(?: :| =)", code):
        found.add(m[1])
    return found


class Speller:
    def __init__(self, tree):
        self.tree = tree
        self.own, self.where, self.fields = set(), {}, set()
        for path, text in tree.text.items():
            if path.endswith(".antt") and not is_of_function(path):
                self.fields.update(FIELD.findall(blank(text)))
                for word in declared_in(blank(text)):
                    if turns(word):
                        self.own.add(word)
                        self.where.setdefault(word, path)
        self.scoped = {}
        for (path, word), new in {**TYPES, **OTHERWISE}.items():
            self.scoped[tree.module(path), word] = new
        # A copy that edits.py made, and the file that it is a copy of.
        self.copy_of = {}
        self.map, self.clashes = {}, []

    def table(self, path, code):
        """For a file: its scoped names, the names that it brings in from the library, and those from this repository."""
        scoped, theirs, ours = {}, set(), set()
        here = self.tree.module(self.copy_of.get(path, path)) if path.endswith(".antt") else ""
        for (module, word), new in self.scoped.items():
            if module == here:
                scoped[word] = new
        for module, names, own, _ in self.tree.uses(code):
            parts = module.split(".")
            made = own and len(parts) > 3 and parts[2] == "proofs" and os.path.isdir(f"{self.tree.root}/crates/{parts[1]}/proofs/{parts[3]}")
            (ours if own and not made else theirs).update(names)
            for word in names:
                if (module, word) in self.scoped:
                    scoped[word] = self.scoped[module, word]
        return scoped, theirs, ours

    def word(self, word, dotted, label, path, table):
        """The new spelling of a word of code, or the word."""
        scoped, theirs, ours = table
        if dotted or label:
            return snake(word) if turns(word) and word in self.own and not is_variable(word) else word
        if word in scoped:
            return scoped[word]
        if not turns(word) or is_variable(word) or word in theirs:
            return word
        if is_of_function(path) and word not in ours:
            return word
        return snake(word)

    def code(self, text, path, table, seen):
        """A piece of antt with its names turned. 'seen' gets the undotted words, old and new."""

        in_function = is_of_function(path)

        def one(m):
            dotted = text[m.start() - 1 : m.start()] == "." and m.start() > 0
            label = in_function and text[max(0, m.start() - 200) : m.start()].rstrip()[-1:] in ("{", ";") and EQUALS.match(text, m.end())
            if in_function and dotted and (m[0] not in self.fields or OF_A_CALL.match(text, m.end())):
                return m[0]
            new = self.word(m[0], dotted, bool(label), path, table)
            if not dotted:
                seen[m[0]] = new
            if new != m[0]:
                self.map.setdefault((m[0], new), set()).add(path)
            return new

        return WORD.sub(one, text)

    def comment(self, text, path, table):
        """A comment: names in back quotes, where the file's code or an own declaration has them."""

        def span(m):
            return WORD.sub(lambda w: self.word(w[0], False, False, path, table) if w[0] in self.own or w[0] in table[0] else w[0], m[0])

        return re.sub(r"`[^`\n]+`", span, text)

    def antt(self, text, path):
        table, seen = self.table(path, blank(text)), {}
        out = between(QUIET, text, lambda m: m[0] if m[0][0] == '"' else self.comment(m[0], path, table), lambda t: self.code(t, path, table, seen))
        self.meet(seen, path)
        return realigned(text, out)

    def rt(self, text, path):
        table, seen, out, rust, at, typed = self.table(path, text), {}, [], [], 0, False
        while at < len(text):
            m = RUST.match(text, at)
            word, end = m[0], m.end()
            clause = CLAUSE.match(text, at) if word in ("requires", "ensures", "decreases", "invariant", "ghost") else DEFAULT.match(text, at) if typed and word == "=" else None
            use = GHOST_USE.match(text, at) if word == "ghost" else None
            tactic = TACTIC.match(text, at)
            if clause and closing(text, clause.end()):
                end, typed = closing(text, clause.end()), ":" in clause[0]
                out.append(clause[0] + between(re.compile(r"//[^\n]*|\"(?:[^\"\\\n]|\\.)*\""), text[clause.end() : end], lambda m: self.comment(m[0], path, table), lambda t: self.code(t, path, table, seen)))
            elif use or tactic:
                end = (use or tactic).end()
                out.append(self.code(text[at:end], path, table, seen))
            elif word[:2] in ("//", "/*"):
                out.append(self.comment(word, path, table))
            else:
                typed = typed and (word.isspace() or word == "}")
                out.append(word)
                if re.match(r"\w", word):
                    follows = CALLED.match(text, end)
                    before = "".join(out[-3:-1])
                    if not follows and not before.endswith((".", "::")):
                        rust.append(word)
            at = end
        self.meet(seen, path, set(rust))
        return "".join(out)

    def meet(self, seen, path, rust=()):
        """Notes names of one file that would become one."""
        by = collections.defaultdict(set)
        for old, new in seen.items():
            by[new].add(old)
        for new, olds in by.items():
            changed = [it for it in olds if it != new]
            if changed and (len(olds) > 1 or new in rust):
                self.clashes.append(f"{path}: {', '.join(sorted(olds))} would be {new}" + (", which the code calls something" if new in rust else ""))


def is_variable(word):
    return re.fullmatch(r"[a-z][A-Z]['₀-₉]*", word) is not None


def between(pattern, text, inside, outside):
    out, at = [], 0
    for m in pattern.finditer(text):
        out += [outside(text[at : m.start()]), inside(m)]
        at = m.end()
    return "".join(out + [outside(text[at:])])


def closing(text, at):
    depth = 1
    while at < len(text):
        m = RUST.match(text, at)
        depth += {"{": 1, "}": -1}.get(m[0], 0)
        if not depth:
            return at
        at = m.end()
    return None


def realigned(old, new):
    """The new text, in which the later lines of a block stand under its first item again."""
    if len(old) == len(new):
        return new
    was, now, lines = blank(old).split("\n"), blank(new).split("\n"), new.split("\n")
    by = [0] * len(lines)
    for row, (a, b) in enumerate(zip(was, now)):
        for x, y in zip(BLOCK.finditer(a), BLOCK.finditer(b)) if a != b else ():
            below = row + 1
            while x.end() != y.end() and below < len(was):
                if was[below].strip() and was[below][: x.end()].strip():
                    break
                by[below] += (y.end() - x.end()) * bool(was[below].strip())
                below += 1
    return "\n".join(" " * n + line if n >= 0 else line[-n:] for n, line in zip(by, lines))


def respelled(root, copies=None):
    """Each text below root that changes, with its new text, and the Speller."""
    tree = Tree(root)
    speller = Speller(tree)
    speller.copy_of = copies or {}
    moves = {tree.module(old): (old, new) for old, new in MODULES.items() if old in tree.text}
    out = {}
    for path, text in sorted(tree.text.items()):
        new = speller.antt(text, path) if path.endswith(".antt") else speller.rt(text, path)
        for module, (old, name) in moves.items():
            new = re.sub(re.escape(module) + r"(?![\w'-])", module.rsplit(".", 1)[0] + "." + name, new)
            if path == os.path.dirname(old) + "/Lib.antt":
                new = re.sub(rf"(?m)^((?:pub )?mod ){os.path.basename(old)[:-5]}$", rf"\g<1>{name}", new)
        if new != text:
            out[path] = new
    return out, speller, {old: f"{os.path.dirname(old)}/{name}.antt" for old, name in moves.values()}


PROSE = ("README.md", "docs", "tools/templates")


def pages(root, speller):
    """The pages that cite names: words in code spans (in tools/templates every word) that no text has any more and whose new spelling one has."""
    known = set()
    tree = Tree(root)
    for path, text in tree.text.items():
        if path.endswith(".antt"):
            known.update(WORD.findall(blank(text)))
    scoped = {}
    for (_, word), new in {**TYPES, **OTHERWISE}.items():
        scoped.setdefault(word, new)

    def one(m):
        word = m[0].replace("′", "'")
        if word in known or is_variable(word):
            return m[0] if m[0] in known or word not in known else word
        new = snake(word) if turns(word) else word
        if new in known and new != word:
            return new
        return scoped[word] if word in scoped and scoped[word] in known and turns(word) else m[0]

    out = {}
    for top in PROSE:
        at = f"{root}/{top}"
        files = [at] if os.path.isfile(at) else [os.path.join(f, n) for f, _, ns in os.walk(at) for n in sorted(ns)]
        for path in files:
            with open(path, encoding="utf-8") as f:
                text = f.read()
            if path.endswith(".md"):
                new = re.sub(r"`[^`\n]+`", lambda m: m[0] if re.match(r"`(?:rt|just|cargo|bash|tests/|bench/|host/|docs/)", m[0]) else re.sub(r"[^\s(){}.;,@\"«»`/:]+", one, m[0]), text)
            else:
                new = WORD.sub(one, text)
            if new != text:
                out[os.path.relpath(path, root)] = new
    return out


def filtered(names, text):
    table = collections.defaultdict(set)
    with open(names, encoding="utf-8") as f:
        for row in f:
            old, new = row.rstrip("\n").split("\t")[:2]
            table[old].add(new)

    def one(m):
        if m[0] in {it for _, it in TYPES} or m[0] not in table:
            return m[0]
        if len(table[m[0]]) > 1:
            print(f"respell: {m[0]}: one of {', '.join(sorted(table[m[0]]))}", file=sys.stderr)
            return snake(m[0])
        return next(iter(table[m[0]]))

    return re.sub(r'[^\s(){}.;,@"«»`/:]+', one, text)


def main(argv):
    if len(argv) == 2 and argv[0] == "--filter":
        sys.stdout.write(filtered(argv[1], sys.stdin.read()))
        return 0
    names = None
    if "--map" in argv:
        at = argv.index("--map")
        names = argv[at + 1]
        del argv[at : at + 2]
    if set(argv) - {"--check", "--list"} or not os.path.isdir("crates"):
        print(__doc__)
        return 2
    out, speller, moves = respelled(".")
    rows = sorted({(old, new) for old, new in speller.map})
    if speller.clashes:
        print("respell: these names would fall together; give one of each its own in OTHERWISE. Nothing was written:")
        print("\n".join(speller.clashes))
        return 2
    for old, new in rows:
        print(f"{old} -> {new}  ({speller.where.get(old, sorted(speller.map[old, new])[0])}; {len(speller.map[old, new])} files)")
    if "--list" in argv:
        stays = set()
        for path, text in speller.tree.text.items():
            if path.endswith(".antt") and not is_of_function(path):
                stays.update(it for it in declared_in(blank(out.get(path, text))) if re.search(r"\w-\w|\?|^[a-z].*[a-z0-9][A-Z]|^[a-z][A-Z]", it))
        print("stays: " + " ".join(sorted(stays)))
    if names:
        with open(names, "w", encoding="utf-8") as f:
            f.writelines(f"{old}\t{new}\t{speller.where.get(old, sorted(speller.map[old, new])[0])}\n" for old, new in rows)
    if "--check" not in argv:
        for path, text in out.items():
            with open(path, "w", encoding="utf-8") as f:
                f.write(text)
        for old, new in moves.items():
            os.rename(old, new)
        more = pages(".", speller)
        for path, text in more.items():
            with open(path, "w", encoding="utf-8") as f:
                f.write(text)
        print(f"respell: pages and templates: {len(more)} ({', '.join(sorted(more))})")
    print(f"respell: {len(rows)} names, {len(out)} files, {len(moves)} modules moved")
    return 0


if __name__ == "__main__":
    raise SystemExit(main(sys.argv[1:]))
