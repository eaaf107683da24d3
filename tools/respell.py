#!/usr/bin/env python3
"""Brings the repository's own definitions and lemmas to snake case: tools/respell.py [FOLDER], once, after the port to today's Rattle.

A definition in camel case (setPending) and a lemma whose words a dash joins (set-enable-adds-up) become set_pending and
set_enable_adds_up, in specs/, proofs/, the clauses of src/, the must-fail edits and the pages. Types, modules and whatever begins with a
capital stay, as do the functions of src/, exported names, strings and what Rattle or its library names. A lemma that would take its
definition's name gets _lem.
"""

import os
import re
import sys

WORD = re.compile(r"(?<![\w'-])[A-Za-z_][\w'-]*")
DECLARED = re.compile(r"^([ \t]*)(?:(?:pub|private|abbrev|unfoldable|opaque|inline)[ \t]+)*([a-z_][\w'-]*)[ \t]*(?:\{[^}\n]*\}|\([^)\n]*\)|[ \t])*:(?![:=])", re.M)
IMPORT = re.compile(r"^(?:ghost )?use ([^;\n{]*)(?:\{([^}]*)\})?", re.M)
# Names of Rattle's library that look like ours.
LIBRARY = {"bool_Tells", "mut_Tells", "plain_Makes", "shr_slice_Lawful", "shr_slice_Tells", "uint_Makes", "uint_Tells", "walk_Meets"}
# Local names that would hide a definition, by file.
LOCAL = {
    "crates/select/proofs/KeyLaws.antt": {"ready_at": "ready_of"},
    "crates/stories/proofs/Calls.antt": {"record_of": "transition"},
    "crates/stories/specs/Stories.antt": {"one_written": "one_number"},
    "crates/stories/proofs/TwoMessages.antt": {"one_written": "one_number"},
    "crates/story_examples/proofs/Computed.antt": {"one_written": "one_number"},
    "crates/places/proofs/Fits.antt": {"bit_word": "bit_word_lem"},
    "crates/places/proofs/Sounds.antt": {"bit_word": "bit_word_lem"},
    "crates/places/proofs/write_place/Proof.antt": {"bit_word": "bit_word_lem"},
    "crates/places/proofs/read_place/Proof.antt": {"bit_word": "bit_word_lem"},
}
PAGES = (".md", ".svg", ".h")


def snake(name):
    return re.sub(r"(?<=[a-z0-9])([A-Z])", lambda m: "_" + m.group(1).lower(), name)


def files(root, folder, ends):
    for at, dirs, names in os.walk(os.path.join(root, folder)):
        dirs[:] = sorted(d for d in dirs if d not in ("out", "target", ".git"))
        for name in sorted(names):
            if name.endswith(ends):
                yield os.path.join(at, name)


def read(path):
    with open(path, encoding="utf-8") as f:
        return f.read()


def code(text):
    return re.sub(r"--.*", "", text)


def imported(text, crates):
    """What a file takes from the library under a name of its own."""
    taken = set()
    for path, names in IMPORT.findall(text):
        part = path.split(".")
        if part[0] == "Rattle" and len(part) > 1 and part[1] in crates:
            continue
        taken |= set(WORD.findall(names or ""))
    return taken


def table(root, crates):
    camel, dashed, plain = set(), set(), set()
    for path in files(root, "crates", ".antt"):
        text = code(read(path))
        camel |= {w for w in WORD.findall(text) if re.match("[a-z_]", w) and re.search("[A-Z]", w) and "-" not in w}
        if os.path.basename(path) not in ("Proof.antt", "Answers.antt", "Invariants.antt"):
            for _, name in DECLARED.findall(text):
                (dashed if "-" in name else plain).add(name)
    new = {w: snake(w) for w in camel - LIBRARY}
    taken = set(new.values())
    # A lemma has an underscore already, where the port gave it one, or a dash still.
    for w in plain & taken:
        if w not in FIELDS:
            new[w] = w + "_lem"
    for w in dashed - {"class-at"}:
        v = snake(w).replace("-", "_")
        new[w] = v + "_lem" if v in taken or v in ABOVE else v
    if "class-at" in dashed:
        new["class-at"] = "class_is"
    return new


# Record fields of a definition's name, and what the Prelude names.
FIELDS = {"in_scope", "one_written", "in_frame", "handed_out", "no_start", "bit_word", "ready_at"}
ABOVE = {"bit_or", "read_on"}


def turn(text, new, skip):
    return WORD.sub(lambda m: m.group(0) if m.group(0) in skip else new.get(m.group(0), m.group(0)), text)


def ticked(text, new):
    """Names between back ticks alone: prose has words of the same form."""
    names = set(new.values())

    def name(m):
        w = m.group(0)
        if w in new and ("-" in w or re.search("[A-Z]", w)):
            return new[w]
        v = snake(w).replace("-", "_")
        if v != w and re.match("[a-z_]", w) and (v in names or v in DEFINED):
            return v + "_lem" if "-" in w and v + "_lem" in names else v
        return w

    return re.sub(r"`[^`\n]*`", lambda m: WORD.sub(name, m.group(0)), text)


DEFINED = set()


def main(root):
    crates = set(os.listdir(os.path.join(root, "crates")))
    new = table(root, crates)
    for path in files(root, "crates", ".antt"):
        DEFINED.update(n for _, n in DECLARED.findall(code(read(path))))
    for path in list(files(root, "crates", (".antt", ".rt", ".edit"))):
        text = read(path)
        local = LOCAL.get(os.path.relpath(path, root), {})
        if path.endswith(".antt"):
            skip = imported(text, crates)
            lines = []
            for line in text.split("\n"):
                head, mark, tail = line.partition("--")
                head = turn(turn(head, local, set()), {k: v for k, v in new.items() if k not in local.values()}, skip)
                lines.append(head + mark + ticked(tail, new))
            out = "\n".join(lines)
        elif path.endswith(".rt"):
            out = turn_source(text, new)
        else:
            out = turn_edit(text, new)
        if out != text:
            with open(path, "w", encoding="utf-8") as f:
                f.write(out)
    pages = [os.path.join(root, p) for p in os.listdir(root) if p.endswith(PAGES)]
    for folder in ("docs", "tests", "include", "integration", "rust"):
        pages += list(files(root, folder, PAGES)) if os.path.isdir(os.path.join(root, folder)) else []
    for path in pages:
        text = read(path)
        out = ticked(text, new)
        if out != text:
            with open(path, "w", encoding="utf-8") as f:
                f.write(out)


def turn_source(text, new):
    """In src/ only clauses, ghost items and comments: Rust has no dash in a name, and no function of ours is in camel case."""
    only = {k: v for k, v in new.items() if re.search("[A-Z]", k)}
    return re.sub(r"\"(?:[^\"\\\n]|\\.)*\"|[^\"]+", lambda m: m.group(0) if m.group(0)[0] == '"' else turn(m.group(0), only, set()), text)


def turn_edit(text, new):
    out, file = [], ""
    for line in text.split("\n"):
        if line.startswith("file: "):
            file = line[6:]
        if line.startswith(("old: ", "new: ")):
            line = turn_source(line, new) if file.endswith(".rt") else turn(line, new, set())
        elif line.startswith("refused: ") and "::" not in line:
            line = turn(line, new, set())
        else:
            line = ticked(line, new)
        out.append(line)
    return "\n".join(out)


if __name__ == "__main__":
    main(sys.argv[1] if len(sys.argv) > 1 else ".")
