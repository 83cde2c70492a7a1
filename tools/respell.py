#!/usr/bin/env python3
"""Spells the repository's own definitions and lemmas in snake case: fieldAt and field-lt become field_at and field_lt.

usage: tools/respell.py [--list]        at the top of the repository; --list prints each old name and its new one, and writes nothing

It was run once, behind port.py, on files in which only the names that a library has too were in snake case. What is declared in specs/
and in the files directly below proofs/ is respelled, there and where it is imported. Functions of src/, the labels that Rattle makes of
them, strings and names of a library stay. Where two names would fall together, the lemma's ends in _lem.
"""
import collections
import os
import re
import sys

NAME = r"[^\s(){}\[\];,.@\"«»]+"
DECLARED = re.compile(
    r"^\s*(?:(?:abbrev|unfoldable|pub|record|data|infix|opaque)\s+)*(" + NAME + r")\s*(?:\([^)]*\)\s*|\{[^}]*\}\s*)*:\s"
)
LET = re.compile(r"\blet\s+(" + NAME + r")\s*[:=]")
USE = re.compile(r"\buse\s+([^\s;{]+?)(?:\.?\{([^}]*)\}|\s+as\s+(\S+?))?(?=[;\s]|$)")
# the words of a session's lines, which functions of the memory are called as too
CHOSEN = {it + "Word": "word_" + it for it in "image call head raise load store hit bad guest extent source".split()}
# propositions are spelled as types, where the module of the first word declares them and where it is imported from
FACTS = {"there": ("Rattle.image.specs.Answers", "Reaches"), "answered": ("Rattle.mmu.proofs.TsbLaws", "Answered")}


def texts():
    for folder, dirs, files in os.walk("crates"):
        dirs[:] = sorted(d for d in dirs if d != "out")
        for f in sorted(files):
            if f.endswith((".antt", ".rt")):
                yield os.path.join(folder, f)


def is_rules_or_laws(path):
    """Whether a file has definitions or lemmas, and is no function's own."""
    parts = path.split(os.sep)
    return path.endswith(".antt") and len(parts) == 4 and parts[2] in ("specs", "proofs")


def snake(name):
    return re.sub(r"(?<=[a-z0-9])([A-Z])", lambda m: "_" + m[1].lower(), name).replace("-", "_")


def is_camel(name):
    return bool(re.match(r"[a-z].*[a-z0-9][A-Z]", name)) and "-" not in name


def is_word(name):
    return bool(re.match(r"[a-z][\w'₀-₉-]*$", name))


def imports(text, crates):
    """The names that a file imports from a library, from this repository, and the short names of its modules."""
    theirs, ours, aliases = set(), set(), set()
    for m in USE.finditer(text):
        steps = m[1].split(".")
        own = steps[0] == "Rattle" and len(steps) > 1 and steps[1] in crates
        for it in (m[2] or "").split(","):
            for word in it.split(" as "):
                (ours if own else theirs).add(word.strip())
        if own and m[3] and ("specs" in steps or not re.search(r"proofs\.[a-z+]", m[1])):
            aliases.add(m[3])
    return theirs, ours, aliases


def declared(files):
    names = collections.defaultdict(set)
    for p, text in files.items():
        if not is_rules_or_laws(p):
            continue
        for line in text.splitlines():
            line = line.split(" -- ")[0]
            if line.lstrip().startswith("--") or USE.match(line.strip().removeprefix("pub ")):
                continue
            m = DECLARED.match(line)
            if m:
                names[m[1]].add(p)
            for m in LET.finditer(line):
                names[m[1]].add(p)
    return names


def renamed(names, libraries):
    """A new name for each name that is not in snake case."""
    new = {}
    for n in names:
        if n in libraries:
            continue
        if n in CHOSEN:
            new[n] = CHOSEN[n]
        elif "◌" in n and "-" in n:
            new[n] = n.replace("-", "_")
        elif is_word(n) and snake(n) != n:
            new[n] = snake(n)
    taken = collections.defaultdict(set)
    for n in names:
        taken[new.get(n, n)].add(n)
    for to, them in taken.items():
        if len(them) > 1:
            kept = [n for n in them if is_camel(n)] or [n for n in them if n == to] or sorted(them)
            for n in them - {kept[0]}:
                new[n] = to + "_lem"
    return new


def parts_of(new):
    """The words of names with places for arguments, as or-refuse of ◌or-refuse◌then◌."""
    words = {}
    for n, to in new.items():
        if "◌" in n:
            words |= {a: b for a, b in zip(n.split("◌"), to.split("◌")) if a != b}
    return words


CUT = re.compile(r'"(?:[^"\\]|\\.)*"|`[^`\n]*`|--[^\n]*|//[^\n]*|(?<=[\s(){}\[\];,.@])' + NAME + "|^" + NAME, re.M)


def turn(path, text, new, parts, crates):
    theirs, ours, aliases = imports(text, crates)
    whole = is_rules_or_laws(path)
    own = ".".join(["Rattle"] + path.split(os.sep)[1:]).removesuffix(".antt")
    new = dict(new)
    for n, (module, fact) in FACTS.items():
        new.pop(n, None)
        if own == module or re.search(rf"\buse {re.escape(module)}\.\{{[^}}]*(?<![\w-]){n}(?![\w-])", text):
            new[n] = fact

    def may(word, before):
        if word in parts and (whole or word not in theirs):
            return parts[word]
        if word not in new or word in theirs:
            return None
        if before == ".":
            return new[word] if whole else None
        return new[word] if whole or word in ours else None

    def each(m):
        word = m[0]
        if word.startswith('"'):
            return word
        if word.startswith(("--", "//")):
            return re.sub(r"`[^`\n]*`|(?<![\w-])[a-z]\w*[a-z0-9][A-Z]\w*(?![\w-])", lambda w: quoted(w[0]) if w[0][0] == "`" else new.get(w[0], w[0]), word)
        if word.startswith("`"):
            return quoted(word)
        before = text[m.start() - 1 : m.start()]
        if before == "." and not whole:
            head = re.search(r"([^\s(){}.;,]+)\.$", text[: m.start()])
            return new.get(word, word) if head and head[1] in aliases else word
        return may(word, before) or word

    def quoted(it):
        return "`" + re.sub(NAME, lambda w: new.get(w[0], w[0]) if is_camel(w[0]) or "-" in w[0] else w[0], it[1:-1]) + "`"

    return CUT.sub(each, text)


def main(argv):
    crates = set(os.listdir("crates"))
    files = {}
    for p in texts():
        with open(p, encoding="utf-8") as f:
            files[p] = f.read()
    libraries = set()
    for p, text in files.items():
        libraries |= imports(text, crates)[0]
    new = renamed(declared(files), libraries)
    if argv == ["--list"]:
        for n in sorted(new):
            print(n, new[n], sep="\t")
        return
    parts = parts_of(new)
    for p, text in files.items():
        turned = turn(p, text, new, parts, crates)
        if turned != text:
            with open(p, "w", encoding="utf-8") as f:
                f.write(turned)


if __name__ == "__main__":
    main(sys.argv[1:])
