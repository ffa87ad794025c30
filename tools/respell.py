#!/usr/bin/env python3
"""respell.py: brings the names of this repository's definitions and lemmas to today's spelling, after the kit's port.py has run.

Words are in snake case, types and modules in upper camel case; a dash joins two names of definitions, and a plain word is added with `_`.
Run once, at the top: it reads crates/*/specs and crates/*/proofs for what is declared, and rewrites specs, proofs, the clauses of src and
the names that pages have in backticks. `respell.py --list` prints the names, old and new, and changes nothing.
"""
import glob
import re
import sys

# a name as antt splits it: anything up to a blank or a bracket, without the dots that lead into modules and fields
TOKEN = re.compile(r"[^\s(){}\[\],;:.`\"]+")

DECLARED = re.compile(r"(?m)^(?:  )?(?:pub |abbrev |unfoldable )*(?:record |data )?([^\s:(){}]+)(?: [({][^:\n]*(?::[^:\n]*)*?)? :(?= |$)")
# words that are part of the library's names, so that a dash beside them joins two names
LIBRARY = set("length append take drop get_or set map fold replicate reverse concat".split())

# cases of types, fields and bound variables that the pattern below does not find
OTHERS = dict((
    ("byReset", "by_reset"),
    ("byStop", "by_stop"),
    ("codeSpared", "code_spared"),
    ("isStart", "is_start"),
    ("notAlone", "not_alone"),
    ("notShown", "not_shown"),
    ("readsLoad", "reads_load"),
    ("readsStart", "reads_start"),
    ("startBytes", "start_bytes"),
))


def declared(paths):
    names = set()
    for path in paths:
        for name in DECLARED.findall(open(path).read()):
            if "◌" not in name:
                names.add(name)
    return names


def definitions(paths):
    """What is marked as a definition or stands as a type, in specs or beside the lemmas."""
    names = set()
    for path in paths:
        names.update(re.findall(r"(?m)^ *(?:abbrev|unfoldable) (?:pub )?([^\s:(){}]+) ", open(path).read()))
    return names


def fields(paths):
    names = set()
    for path in paths:
        inside = None
        for line in open(path):
            lead = len(line) - len(line.lstrip())
            if re.match(r" *(pub )?record ", line):
                inside = lead
            elif line.strip() and inside is not None and lead <= inside:
                inside = None
            field = inside is not None and re.match(r" +(?:pub )?([^\s:]+) :", line)
            if field and lead == inside + 2:
                names.add(field.group(1))
    return names


def imported_from_kit(paths):
    names = set()
    for path in paths:
        for line in re.findall(r"(?m)^ *(?:ghost )?use (?:Rattle\.std|Rattle\.core|borrow|native|mathlib|lib|logic|denote)\b[^{\n]*\{([^}]*)\}", open(path).read()):
            names.update(n.strip().split(" as ")[-1] for n in line.split(","))
    return names


def snake(word):
    if word[:1].isupper():
        return word
    return re.sub(r"(?<=[a-z0-9_])([A-Z])", lambda m: "_" + m.group(1).lower(), word)


def renamed():
    specs = glob.glob("crates/*/specs/*.antt")
    lemmas = glob.glob("crates/*/proofs/*.antt")
    defined, proved = declared(specs), declared(lemmas)
    named = definitions(specs + lemmas)
    kit = imported_from_kit(glob.glob("crates/**/*.antt", recursive=True) + glob.glob("crates/*/src/*.rt"))
    types = {re.sub(r"([A-Z])", lambda m: "_" + m.group(1).lower(), n).lstrip("_") for n in defined if n[:1].isupper()}
    words = {snake(n) for n in defined & named if "-" not in n} | LIBRARY
    new = dict(OTHERS)
    for name in sorted(defined | proved):
        if name in kit or name[:1].isupper() or not re.fullmatch(r"[a-z][A-Za-z0-9_'?-]*", name):
            continue
        parts = [snake(p) for p in name.split("-")]
        whole = "_".join(parts)
        if whole not in types:
            whole = parts[0]
            for before, after in zip(parts, parts[1:]):
                whole += ("-" if before in words and after in words else "_") + after
        if whole != name:
            new[name] = whole
    # what would fall together: the definition has the name, and a lemma of that name gets `_lem`.
    # A field is named behind a dot, so it can share a lemma's name.
    only_fields = fields(specs + lemmas) - named
    rank = lambda name: (name in kit, name in named and name in defined, name in named, name in defined, name)
    taken = {}
    for name in sorted((defined | proved | kit) - only_fields):
        taken.setdefault(new.get(name, name), []).append(name)
    for whole, olds in taken.items():
        for name in sorted(olds, key=rank)[:-1]:
            new[name] = whole + "_lem"
    return new, defined, proved


def main():
    new, defined, proved = renamed()
    if "--list" in sys.argv:
        for old, now in sorted(new.items()):
            print(old, now)
        return
    behind_dot = fields(glob.glob("crates/*/specs/*.antt") + glob.glob("crates/*/proofs/*.antt")) | set(OTHERS)

    def turn(text, keep):
        def swap(m):
            old = m.group(0)
            if old not in new or keep(old):
                return old
            # behind a dot stands a field, or a name of the module before it; the rest is what Rattle makes of the code
            before = re.search(r"([^\s(){}\[\],;:.]*)\.$", text[: m.start()])
            if before and old not in behind_dot and not before.group(1)[:1].isupper():
                return old
            return new[old]

        return TOKEN.sub(swap, text)

    def turn_line(line, mark, keep):
        """A comment is prose, where only a name in backticks is one of ours."""
        code, dashes, prose = re.fullmatch(rf"(.*?)(?:(^|(?<=\s)){mark}(?=\s|$)(.*))?", line, re.S).group(1, 2, 3)
        if prose is None:
            return turn(line, keep)
        return turn(code, keep) + mark + re.sub(r"`[^`]*`", lambda m: turn(m.group(0), keep), prose)

    def write(path, keep):
        text = open(path).read()
        mark = "--" if path.endswith(".antt") else "//"
        turned = "\n".join(turn_line(line, mark, keep) for line in text.split("\n"))
        if turned != text:
            open(path, "w").write(turned)

    for path in glob.glob("crates/**/*.antt", recursive=True):
        write(path, lambda old: False)
    # code is in snake case already: only clauses and their imports have names in the older spelling
    for path in glob.glob("crates/*/src/*.rt"):
        write(path, lambda old: not re.search("[A-Z]", old) and "-" not in old)
    # pages name theorems in backticks
    for path in ["README.md", "CONTRIBUTING.md"] + [p for p in glob.glob("docs/**/*.md", recursive=True) if "PORT" not in p]:
        text = open(path).read()
        turned = re.sub(r"`[^`\n]*`", lambda m: turn(m.group(0), lambda old: False), text)
        if turned != text:
            open(path, "w").write(turned)


if __name__ == "__main__":
    main()
