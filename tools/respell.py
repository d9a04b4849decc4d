#!/usr/bin/env python3
"""Respells the repository's own definitions and lemmas as the library spells its own: words in snake case, types in camel case.

usage: tools/respell.py      at the top of a repository that port.py has just turned; run once, docs/PORT.md says when

A name of crates/*/specs/*.antt or crates/*/proofs/*.antt that is in lower camel case or has a dash gets underscores. Where that name
is taken already, the lemma gets `_lem`. Clauses and comments of src/, must-fail edits and the names that documents put between
backquotes follow. Functions of src/, exported names, strings, inputs and outputs are not touched.
"""
import collections
import glob
import re

# Lemmas that had the name which a definition gets, by the file that declares them.
LEMMAS = {
    "all_after": "crates/format/proofs/Tests.antt",
    "laid_out": "crates/master_bytes/proofs/Claims.antt",
    "refused_as": "crates/station_bytes/proofs/Handing.antt",
    "round_trip": "crates/station/proofs/RoundTrip.antt",
    "same_bool": "crates/format/proofs/Tables.antt",
    "same_key": "crates/slot/proofs/Keys.antt",
}
# A definition of one file that would fall together with one of another.
OTHERS = {"Not-long": "NotLongNext"}
HEAD = re.compile(r"^((?:(?:abbrev|unfoldable|pub|data|record|ruleset) )*)([^\s:(){}\-][^\s:(){}]*)")
NO_NAMES = {"use", "mod", "open", "infix", "infixl", "infixr", "mutual", "where", "unfolding", "module", "pub"}
ENDS = r"\s(){}\[\],;.:=|`\"«»"
PART = re.compile(rf"[^{ENDS}]+")


def declared(text):
    """The names that a file of definitions or lemmas declares."""
    found, inside = [], False
    for line in text.split("\n"):
        head = HEAD.match(line)
        if head and not line.startswith("--") and head.group(2) not in NO_NAMES:
            words, name = head.group(1).strip(), head.group(2)
            if words or re.match(r"^[^\s:(){}]+ :(?: |$)", line):
                found.append(name)
                inside = "data" in words or "record" in words
            continue
        member = re.match(r"^  (?:pub )?((?:[^\s:(){}]+ )+): ", line)
        if member and (inside or line.startswith("  ")):
            found += member.group(1).split()
    return found


def own_files():
    return sorted(glob.glob("crates/*/specs/*.antt") + glob.glob("crates/*/proofs/*.antt"))


def snake(name):
    if name[0].isupper():
        return "".join(word[:1].upper() + word[1:] for word in name.split("-"))
    return re.sub(r"(?<=[a-z0-9])([A-Z])", lambda m: "_" + m.group(1).lower(), name.replace("-", "_"))


def is_old(name):
    return bool(re.search(r"\w-\w", name) or re.match(r"[a-z]+\w*[A-Z]", name)) and not name.startswith("+")


def read(path):
    with open(path, encoding="utf-8") as file:
        return file.read()


def names():
    """What each name becomes: everywhere, and in the file of a private lemma alone."""
    found = collections.defaultdict(set)
    for path in own_files():
        for name in declared(read(path)):
            found[name].add(path)
    turned, taken = dict(OTHERS), {name for name in found if not is_old(name)} - set(LEMMAS)
    old = [name for name in found if is_old(name) and name not in OTHERS]
    # Definitions first: where a lemma has the same words, it is the lemma that gets another name.
    for name in sorted(old, key=lambda name: ("-" in name, name)):
        new = snake(name)
        if "-" in name and new in taken:
            new += "_lem"
        taken.add(new)
        turned[name] = new
    return turned, {name: name + "_lem" for name in LEMMAS}


def turn(text, turned):
    """The text with each name turned; in a comment a word with a dash is English, and stays, unless it stands between backquotes."""
    plain = {name: new for name, new in turned.items() if "-" not in name}

    def words(text, names):
        return PART.sub(lambda m: names.get(m.group(0), m.group(0)), text)

    def line(text):
        code, mark, comment = text.partition("--") if not text.startswith(("#", "//")) else ("", "", text)
        parts = comment.split("`")
        return words(code, turned) + mark + "`".join(words(part, turned if i % 2 else plain) for i, part in enumerate(parts))

    return "\n".join(map(line, text.split("\n")))


def turn_lemmas(text, lemmas):
    """The lemmas that had a definition's name, but not the functions of src/ that have it too."""
    for name, new in lemmas.items():
        text = re.sub(rf"(?<![^{ENDS}])(?<!proofs\.){name}(?![^{ENDS}])(?!\.(?:Goals|Given|Tie|Statement))", new, text)
    return text


def main():
    turned, lemmas = names()
    users = {name: {path for path in glob.glob("crates/**/*.antt", recursive=True)
                    if re.search(rf"\.{name}\b|\.\{{[^}}]*(?<![\w-]){name}(?![\w-])", read(path))
                    and re.search(rf"proofs\.{home.split('/')[-1][:-5]}\.", read(path)) or path == home}
             for name, home in LEMMAS.items()}
    for path in sorted(glob.glob("crates/**/*.antt", recursive=True)):
        text = turn_lemmas(read(path), {n: lemmas[n] for n in lemmas if path in users[n]})
        write(path, turn(text, turned))
    known = set(turned.values())
    older = {}
    for path in sorted(glob.glob("crates/*/must-fail*/*.edit") + glob.glob("*.md") + glob.glob("docs/**/*.md", recursive=True)):
        text = read(path)
        for name in set(PART.findall(text)):
            if is_old(name) and name not in turned and snake(name) in known | set(declared_now()):
                older[name] = snake(name)
        if path.endswith(".edit"):
            write(path, turn(text, {**older, **turned}))
        else:
            write(path, re.sub(r"`[^`\n]+`", lambda m: turn(m.group(0), {**older, **turned}), text))
    for path in sorted(glob.glob("crates/*/src/**/*.rt", recursive=True)):
        plain = {name: new for name, new in turned.items() if "-" not in name}
        text = re.sub(r"(?m)^ghost use .*$", lambda m: turn(m.group(0), turned), read(path))
        write(path, turn(text, plain))


def declared_now(kept=[]):
    if not kept:
        kept += [name for path in own_files() for name in declared(read(path))]
    return kept


def write(path, text):
    if text != read(path):
        with open(path, "w", encoding="utf-8") as file:
            file.write(text)


main()
