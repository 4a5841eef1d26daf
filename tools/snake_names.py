#!/usr/bin/env python3
"""Writes the repository's own definitions, lemmas, fields and constructors in snake case.

usage: tools/snake_names.py [--check] [--list] [FOLDER]

FOLDER is the top of the repository, by default the current folder. A name that is declared in specs/ or in a lemma file of proofs/ and has a
dash or a capital inside gets '_' there: `bytesBetween` is `bytes_between`, `same-goes` is `same_goes`, `CALL-ROW` is `CALL_ROW`. Types keep
their capitals, and a dash beside a sign stays, as in `height-⊹`. Names of the library stay too: what a file imports from elsewhere is not
touched. Names of code, exported names, strings and comments of code are not touched; names in back quotes in comments of definitions are.
It prints each file in which a name would fall together with another, and lays the files out; --check writes nothing, and --list prints the
names. A second run changes nothing.
"""

import os
import re
import subprocess
import sys

WORD = re.compile(r"--[^\n]*|//[^\n]*|\"(?:[^\"\\]|\\.)*\"|[^\s(){};,@\"«»\[\]\\.|`]+")
IMPORT = re.compile(r"(?ms)^(?:ghost |pub )?use ([^\s{;]+?)\.?(?:\{([^}]*)\})?(?: as (\S+))?;?$")
# Names that are called otherwise than by the rule.
OTHERWISE = {"textOrEOF": "text_or_eof", "text_orEOF": "text_or_eof"}
KEYWORDS = set("use pub let in where module open ruleset abbrev unfoldable record data mutual".split())


def read(path):
    with open(path, encoding="utf-8", newline="") as it:
        return it.read()


def files(root, ends):
    for folder, dirs, names in os.walk(os.path.join(root, "crates")):
        dirs[:] = sorted(it for it in dirs if it not in ("out", "must-fail", "data"))
        for it in sorted(names):
            if it.endswith(ends):
                yield os.path.join(folder, it)


def snake(name):
    if name in OTHERWISE:
        return OTHERWISE[name]
    if re.fullmatch(r"[^a-z]*", name) and "-" not in name:
        return name
    out = re.sub(r"(?<=[a-z0-9])([A-Z])(?=[a-z0-9→'-]|$|[^\x00-\x7f])", lambda it: "_" + it[1].lower(), name) if not re.match(r"[A-Z]", name) else name
    return re.sub(r"(?<=[A-Za-z0-9_'])-(?=[A-Za-z0-9_])", "_", out)


def is_declaring(path):
    return os.sep + "specs" + os.sep in path or os.path.basename(path) not in ("Proof.antt", "Answers.antt", "Invariants.antt")


def declared(text):
    """Returns the names that a file of definitions or lemmas declares, with their fields and constructors."""
    found = set()
    lines = text.split("\n")
    inside = None
    for line in lines:
        if line.lstrip().startswith("--"):
            continue
        head = re.match(r"(?:pub )?(record|data|mutual) ", line)
        if re.match(r"\S", line):
            inside = head[1] if head else None
        one = re.match(r"\s*(?:abbrev )?(?:unfoldable )?(?:pub )?(?:record |data )?((?:[^\s(){};,:.λ=]+ )+)(?:[({:]|$)", line)
        if one:
            words = one[1].split()
            if inside and line.startswith("  ") or len(words) == 1:
                found.update(words)
        two = re.match(r"\s*(?:abbrev |unfoldable )?(?:pub )?(?:record |data )?([^\s(){};,:.λ=]+) .*?: ", line)
        if two:
            found.add(two[1])
    found.update(re.findall(r" as ([a-z]\w*[A-Z]\w*)", text))
    return {it for it in found if it not in KEYWORDS and not re.match(r"--|[→λ×∙]", it)}


def own_crates(root):
    return {it for it in os.listdir(os.path.join(root, "crates"))}


def imported(text, crates):
    """Returns the names that a file takes from elsewhere than the repository."""
    out = set()
    for it in IMPORT.finditer(text):
        parts = it[1].split(".")
        if parts[0] == "Rattle" and len(parts) > 1 and parts[1] in crates:
            continue
        for one in (it[2] or parts[-1]).split(","):
            out.add(one.split(" as ")[-1].strip())
    return out


def clauses(text):
    """Returns the spans of a source file that are written in antt: ghost imports and clauses."""
    spans = [(it.start(), it.end()) for it in re.finditer(r"(?m)^ghost use [^;]*;", text)]
    for it in re.finditer(r"(?m)^\s*(?:requires|ensures|ghost(?! use))\b[^{;]*\{", text):
        depth, at = 1, it.end()
        while depth:
            depth += {"{": 1, "}": -1}.get(text[at], 0)
            at += 1
        spans.append((it.start(), at))
    return sorted(spans)


def renamed(text, names, library):
    def word(it):
        one = it[0]
        if one.startswith(("--", "//")):
            return re.sub(r"(?<=`)[^`\s]+(?=`)", lambda inner: names.get(inner[0], inner[0]), one)
        before = text_of[max(0, it.start() - 1) : it.start()]
        if one in library and before != ".":
            return one
        return names.get(one, one)

    text_of = text
    return WORD.sub(word, text)


def turned(path, text, names, crates):
    library = imported(text, crates)
    if path.endswith(".rt"):
        out, at = [], 0
        for start, end in clauses(text):
            out += [text[at:start], renamed(text[start:end], names, library)]
            at = end
        return "".join(out) + text[at:]
    return renamed(text, names, library)


def meetings(path, text, names, crates):
    """Returns the pairs of names of a file that would fall together."""
    library = imported(text, crates)
    if path.endswith(".rt"):
        words = set()
        for start, end in clauses(text):
            words |= set(WORD.findall(text[start:end]))
    else:
        # Modules of functions have the functions' names, and meet no word.
        words = set(WORD.findall(re.sub(r"(?m)^use \S+", lambda it: it[0].rsplit("{", 1)[-1], text)))
    words = {it for it in words if not it.startswith(("--", "//", '"'))}
    by_new = {}
    for it in words:
        new = names.get(it, it) if it not in library else it
        by_new.setdefault(new, set()).add(it)
    return [sorted(it) for it in by_new.values() if len(it) > 1]


def main(argv):
    check = "--check" in argv
    rest = [it for it in argv if not it.startswith("--")]
    root = rest[0] if rest else "."
    crates = own_crates(root)
    all_names = set()
    for path in files(root, ".antt"):
        if is_declaring(path):
            all_names |= declared(read(path))
    elsewhere = {it for path in files(root, ".antt") for it in imported(read(path), crates)}
    names = {it: snake(it) for it in all_names - elsewhere if snake(it) != it}
    # A lemma that would have its function's name gets '_lem'.
    taken = {it for it in all_names if it not in names} | {new for it, new in names.items() if "-" not in it}
    for it, new in names.items():
        if "-" in it and it not in OTHERWISE and new in taken:
            names[it] = new + "_lem"
    met = 0
    for path in [*files(root, ".antt"), *files(root, ".rt")]:
        text = read(path)
        for pair in meetings(path, text, names, crates):
            met += 1
            print(f"meet: {os.path.relpath(path, root)}: {' '.join(pair)}")
        new = turned(path, text, names, crates)
        if new != text and not check:
            with open(path, "w", encoding="utf-8", newline="") as it:
                it.write(new)
    if "--list" in argv:
        print("\n".join(f"{a} {b}" for a, b in sorted(names.items())))
    if not check:
        for crate in sorted(crates):
            subprocess.run(["rt", "fmt"], cwd=os.path.join(root, "crates", crate), stdout=subprocess.DEVNULL)
    print(f"snake_names: {len(names)} names, {met} places where two would meet")


if __name__ == "__main__":
    main(sys.argv[1:])
