#!/usr/bin/env python3
"""Counts, in crates/*/src/*.rt, the places that docs/DESIGN-PASS.md speaks of, by text alone.

    tools/design_counts.py [FOLDER]        the counts, a line for each
    tools/design_counts.py --list [FOLDER] each place too, as FILE:LINE and what stands there

FOLDER is the top of the repository (this one, if none is named)."""
import re
import sys
from collections import defaultdict
from pathlib import Path

# The names of functions that do by hand what a derive, a trait or the library does.
BY_HAND = ("same|least|larger|number|wide|word_at|is_between|is_ascii_digit|is_ascii_whitespace|is_ident_start|is_ident_continue|is_trailing|"
           "is_blank|fold|matches|starts_with|next_byte|is_either|is_word|digit_of|bit|part_if|is_open|clear|fill|front|put|put_row|put_word|"
           "put_kind_name|word_start|word_end|write_word|write_words|print_number|print_with|print_three|print_four|print_front|section_number")
# Parameters that travel together.
GROUPS = [("rule", "tokens", "tree"), ("tree", "errors", "level"), ("rule", "image", "tree"), ("collection", "tally"), ("out", "at"),
          ("form", "expected", "first", "end"), ("tree", "at"), ("image", "component"), ("tokens", "tree", "errors")]
# Comments of functions that give a number in place of none.
SENTINEL = r"where there is none|where none|past the (table|memo|last|whole)|; 0 where|else 0$|no place|NO_[A-Z]+"


def functions(path, text):
    """Each function: its line, name, parameters, the comment above it, and its body."""
    for m in re.finditer(r"^((?://[^\n]*\n)*)(?:#\[[^\n]*\]\n)*[ ]*(?:pub(?:\(crate\))? )?(?:extern \"C\" )?fn (\w+)(?:<(?:->|[^<>()]|\([^)]*\)|<[^<>]*>)*>)?\(",
                         text, re.M):
        i, depth = m.end(), 1
        while depth:
            depth += {"(": 1, ")": -1}.get(text[i], 0)
            i += 1
        params = [p.split(":")[0].replace("mut ", "").strip() for p in re.split(r",\s*(?![^<(\[]*[>)\]])", text[m.end():i - 1]) if p.strip()]
        brace = text.find("{\n", i)
        j, depth = brace + 1, 1
        while depth and j < len(text):
            depth += {"{": 1, "}": -1}.get(text[j], 0)
            j += 1
        yield text.count("\n", 0, m.end()) + 1, m.group(2), params, m.group(1), text[brace:j]


def main():
    args = [a for a in sys.argv[1:] if a != "--list"]
    top = Path(args[0] if args else Path(__file__).resolve().parent.parent)
    found = defaultdict(list)
    bodies = defaultdict(list)
    for path in sorted(top.glob("crates/*/src/*.rt")):
        text = path.read_text()
        name = path.relative_to(top / "crates")
        for m in re.finditer(r"^[ ]*(?:pub(?:\(crate\))? )?enum (\w+) \{\n(.*?)^\}", text, re.M | re.S):
            variants = re.findall(r"^    (\w+)(\(|,| \{| =)", m.group(2), re.M)
            plain = [v for v, k in variants if k in (",", " =")]
            shaped = len(variants) == 2 and len(plain) < 2 or any(v == "Open" for v, k in variants) and len(plain) < len(variants)
            place = f"{name}:{text.count(chr(10), 0, m.start()) + 1} enum {m.group(1)}"
            if shaped:
                found["1 enums of the shape of Option or Result"].append(place)
        for m in re.finditer(r"^(?:pub(?:\(crate\))? )?const ([A-Z_0-9]+): (?:u8|u32|usize) = (\d+);", text, re.M):
            found["1 constants that are small numbers (kinds, forms, calls, fields, marks, sizes)"].append(
                f"{name}:{text.count(chr(10), 0, m.start()) + 1} {m.group(1)} = {m.group(2)}")
        for line, fn, params, comment, body in functions(path, text):
            place = f"{name}:{line} {fn}"
            if re.search(SENTINEL, comment.replace("\n", " ")):
                found["1 functions that give a number in place of none, by their comment"].append(place)
            if re.search(r"\bmatch \w+ \{\s*0 =>|\bmatch \w+ \{\s*1 =>", body):
                found["1 matches on a number for a kind"].append(place)
            if re.fullmatch(BY_HAND, fn):
                found["4 functions by hand, by their name"].append(place)
            for g in GROUPS:
                if all(p in params for p in g):
                    found["5 functions with parameters that travel together: " + ", ".join(g)].append(place)
            if len(params) > 6:
                found["5 functions of seven parameters and more"].append(place)
            for k, m in enumerate(re.finditer(r"^\s*(while|loop)\b[^\n]*", body, re.M)):
                found["3 while and loop"].append(f"{place}: {m.group(0).strip()}")
            if re.search(r"\b(\w+) \+= 1;", body) and re.search(r"\bwhile\b", body):
                found["3 of these, in functions that count by hand"].append(place)
            if re.search(r"= \[0(u8|u32|u64)?; ?\w+\]", body):
                found["6 buffers of fixed size"].append(place)
            shape = re.sub(r"b\"[^\"]*\"|b'[^']*'|\b\d[\d_]*\b", "0", body)
            if shape.count("\n") > 4:
                idents = {}
                shape = re.sub(r"\b[a-zA-Z_]\w*\b", lambda m: idents.setdefault(m.group(0), f"x{len(idents)}"), shape)
                bodies[shape].append(place)
    for group in bodies.values():
        if len(group) > 1:
            found["2 functions with the body of another but for names and numbers"].append("  ~  ".join(group))
    proofs = sorted(top.glob("crates/*/proofs/**/*.antt"))
    for path in proofs:
        text = path.read_text()
        what = "8 answers" if path.name == "Answers.antt" else "8 invariants and measures" if path.name == "Invariants.antt" else "8 laws of proofs/"
        n = len(re.findall(r"^pub \S+ : goal\." if "Answers" in path.name else r"^abbrev pub \S+ : goal\." if "Invariants" in path.name
                           else r"^(?:  )?(?:pub )?[\w→≡_'-]+ : ", text, re.M))
        found[what] += [str(path)] * n
    for key in sorted(found):
        print(f"{len(found[key]):5}  {key}")
        if "--list" in sys.argv and not key.startswith("8"):
            for place in found[key]:
                print("       ", place)


main()
