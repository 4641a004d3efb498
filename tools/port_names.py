#!/usr/bin/env python3
"""Brings the definitions and lemmas of this repository to today's spelling: words in snake case, a dash only between two names.

usage: tools/port_names.py [--table FILE]      at the top of the repository, once, right after the kit's port.py

A name is this repository's own if a file of specs/ or a file of lemmas in proofs/ declares it and none imports it from elsewhere. A name in lower camel case
becomes snake case. In a name with dashes a dash stays between two parts that are both names (a definition, a constructor, a field, a word of the library);
any other dash becomes an underscore. Code turns in specs/, proofs/, the clauses and ghost items of src/, and the comments beside them. Functions, types,
fields and parameters of src/ keep their names, and so do goals (`proofs/F/`), strings, inputs and outputs.
A name whose new spelling stands already stays as it was, and is printed: those are looked at by hand. --table writes the rows, old and new.
"""
import collections
import os
import re
import sys

WORD = re.compile(r'[^\s(){}.;,@"«»`]+')
COMMENT = re.compile(r"(?<!\S)--[^\n]*")
# A line that declares one name, a line that declares several constructors, and a name that an import gives.
DECLARES = re.compile(
    r"^\s*(?:(?:unfoldable|abbrev|pub|private|local)\s+)*(?:(?:data|record)\s+)?([^\s(){}.;,@\"«»:|]+)\s*(?:(?:\{[^{}]*\}|\([^()]*\))\s*)*:(?!=)"
)
LIST = re.compile(r"^\s+([a-z][\w-]*(?:\s+[a-z][\w-]*)+)\s*:(?!=)")
NAMED = re.compile(r"\bas ([a-z][\w]{3,})")
USE = re.compile(r"^\s*(?:pub )?(?:ghost )?use ([\w·.'+-]+?)\.\{([^}]*)\}", re.M | re.S)
ITEM = re.compile(r"\b(?:pub )?(?:enum|struct|fn|const|mod) (\w+)")
CLAUSE = re.compile(r"(?:(?:requires|ensures)\s*\*?\s*(?:\w+\s*)?\{|ghost\s+use\b|ghost\s+\w+\s*:\s*\{|//)")
CAMEL = re.compile(r"[a-z0-9][A-Z]")

# A lemma that would have the name of the definition that it is about.
LEMMAS = {w: w + "_lem" for w in ("fed_by", "pair_parts", "pairs_of", "too_long")}


def files(ending):
    for folder, folders, names in os.walk("crates"):
        folders[:] = sorted(f for f in folders if f not in ("out", "must-fail", "wrong", "answers"))
        for name in sorted(names):
            if name.endswith(ending):
                yield os.path.join(folder, name)


def of_function(path):
    """Whether a file is a proof of one function: its names are goals."""
    parts = path.split(os.sep)
    return path.endswith(".antt") and parts[2] == "proofs" and len(parts) > 4


def snake(word):
    word = re.sub(r"(?<=[a-z0-9])(?=[A-Z])", "_", word)
    return word[0] + word[1:].lower() if "_" in word else word


class Names:
    """The names that the files have: declared in specs/ and in laws, goals, brought from elsewhere, used at all, and those of items of src/."""

    def __init__(self, text):
        self.declared, self.goals, self.foreign, self.used, self.items = set(), set(), set(), set(), set()
        crates = set(os.listdir("crates"))
        for path, t in text.items():
            code = COMMENT.sub("", t) if path.endswith(".antt") else t
            for module, items in USE.findall(code):
                ours = module.split(".")[0] == "Rattle" and module.split(".")[1] in crates
                if not ours:
                    self.foreign.update(item for item in re.split(r"[,\s]+", items) if item)
            if path.endswith(".antt"):
                self.used.update(WORD.findall(code))
                self.declares(code, self.goals if of_function(path) else self.declared, of_function(path))
            else:
                self.items.update(ITEM.findall(code))
                self.used.update(re.findall(r"\w+", code))

    @staticmethod
    def declares(code, names, goals):
        if not goals:
            names.update(w for w in NAMED.findall(code) if CAMEL.search(w))
        for line in code.split("\n"):
            m = LIST.match(line)
            if m and not goals:
                names.update(w for w in m.group(1).split() if CAMEL.search(w))
            m = DECLARES.match(line)
            if m and not line.strip().startswith(("use", "|", "λ", "[")) and m.group(1) not in ("λ", "let"):
                names.add(m.group(1))


def spellings(names):
    """The new spelling of each name that turns, and those to look at, since the new spelling stands already."""
    own = {w for w in names.declared - names.foreign - names.goals if re.match(r"[A-Za-z]", w)}
    camel = {w: snake(w) for w in own if CAMEL.search(w) and w[0].islower() and "-" not in w}
    whole = {w for w in names.declared | names.foreign | names.items if "-" not in w and len(w) > 1} | set(camel.values())

    def dashed(w):
        if not all(w.split("-")):
            return w
        first, *others = [p if p[0].isupper() else snake(p) for p in w.split("-")]
        for before, part in zip([first, *others], others):
            first += ("-" if before in whole and part in whole else "_") + part
        return first

    turned = {w: camel.get(w) or dashed(w) for w in sorted(own)}
    turned = {w: new for w, new in turned.items() if new != w} | LEMMAS
    counts = collections.Counter(turned.values())
    look = [(w, new) for w, new in turned.items() if counts[new] > 1 or new in (names.used - names.items) | names.foreign | names.goals]
    for w, new in look:
        if "-" in w or w not in camel:
            del turned[w]
    return turned, look


def turn_code(code, turned, in_goals, aliases):
    def one(m):
        w, before = m.group(0), code[: m.start()]
        if w not in turned or not before.endswith("."):
            return turned.get(w, w)
        head = re.search(r"[^\s(){};,@\"«»`]*$", before).group(0).split(".")[0]
        # behind a dot stands a name of the check's, unless a module stands before it
        kept = w in LEMMAS or ("-" in w and in_goals and head not in aliases)
        return w if kept else turned[w]

    return WORD.sub(one, code)


def turn_source(t, turn):
    """Turns clauses, ghost items and comments' code spans of a file of src/."""
    out, at = [], 0
    while True:
        m = CLAUSE.search(t, at)
        if not m:
            return "".join(out) + t[at:]
        out.append(t[at:m.start()])
        if m.group(0) == "//":
            end = t.find("\n", m.start())
            end = len(t) if end < 0 else end
            out.append(re.sub(r"`[^`\n]*`", lambda s: turn(s.group(0)), t[m.start():end]))
        elif m.group(0).endswith("{"):
            depth, end = 1, m.end()
            while depth and end < len(t):
                depth += {"{": 1, "}": -1}.get(t[end], 0)
                end += 1
            out.append(turn(t[m.start():end]))
        else:
            end = t.find(";", m.start()) + 1
            out.append(turn(t[m.start():end]))
        at = end


def main():
    text = {p: open(p, encoding="utf-8").read() for p in [*files(".antt"), *files(".rt")]}
    turned, look = spellings(Names(text))
    for w, new in look:
        print(f"look: {w} and {new} fall together" + ("" if w in turned else ": stays"))
    for path, t in text.items():
        aliases = set(re.findall(r" as ([\w'+-]+)", t)) | {"Rattle"}
        turn = lambda code: turn_code(code, turned, of_function(path), aliases)
        new = turn(t) if path.endswith(".antt") else turn_source(t, turn)
        if new != t:
            with open(path, "w", encoding="utf-8") as f:
                f.write(new)
    if "--table" in sys.argv:
        with open(sys.argv[sys.argv.index("--table") + 1], "w", encoding="utf-8") as f:
            f.writelines(f"{old}\t{new}\n" for old, new in sorted(turned.items()))
    print(f"{len(turned)} names turned, {len(look)} to look at")


main()
