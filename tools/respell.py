#!/usr/bin/env python3
"""Brings this repository's own definitions and lemmas to one spelling: words in snake case. Run once, at the top, right after port.py.

usage: python3 tools/respell.py [--list]

A name that a file of specs/ or proofs/ declares and that begins with a small letter turns from `oneWord` or `one-word` into `one_word`,
wherever the token stands: definitions, theorems, lemmas, contracts, must-fail edits and code spans of the documents. Names that a file brings
in from the library keep their spelling, and so do functions of src/, exported names, strings, inputs and outputs. Two names that would fall
together are listed, and nothing is written. --list only prints the table.
"""

import collections
import glob
import os
import re
import sys

HEAD = r"[^\s(){}.;,@\"«»\[\]|=λ]+"
DECLARED = re.compile(
    r"^\s*(?:module _ .*)?(?:(?:pub|unfoldable|abbrev|private|opaque|pattern|instance|record|data)\s+)*(" + HEAD + r")(?:\s+\{[^}\n]*\}|\s+\([^)\n]*\))*\s*:(?=\s|$)", re.M
)
TOKEN = re.compile(r"[^\s(){}.;,@\"«»\[\]|=λ→×]+")
# A lemma that would be spelled like the definition that it speaks of has a name of its own, everywhere or in these crates.
APART = {
    "delete-key": "delete_key_part",
    "fault-of": "met_fault",
    "is-journal": "journal_key_is",
    "is-less": "less_is",
    "journal-all": "all_journalled",
    "journal-key": "journal_key_reserved",
    "key-length": "key_length_is",
    "key-size": "key_size_is",
    "op-over": "op_over_is",
    "op-value": "op_value_refused",
    "ops-over": "ops_over_is",
    "put-once": "put_once_says",
    "up-to": "up_to_next",
    "value-size": "value_size_is",
}
# Names that no line of their own declares: several on a line, other names of something brought in, variables.
BESIDE = "fine-ops room-region room-script room-list room-bytes not-above no-13 used-now takes-now"
ALIASES = "chosenIn gatheredIn"
APART_IN = {
    "entries": {"entry_value": "entry_value_long"},
    "definition/proofs/Structs": {"key-at": "key_at", "key-len": "key_len", "value-at": "value_at", "value-len": "value_len"},
    "definition/proofs/Windows": {"keep_all": "keep_all_is"},
    "definition/proofs/Codecs": {"read_back": "entry_read_back"},
    "journal/proofs/Operations": {"op_fits": "op_fits_fine"},
    "operations/proofs/land": {"op_fits": "op_fits_fine"},
    "batch/proofs/apply": {"op_fits": "op_fits_fine"},
    "region/proofs/Walks": {"place_at": "place_at_is"},
}
# Cases and fields that are always written behind their type's name, as the call is behind its module's.
QUALIFIED = {"apply-batch", "apply-ops", "scan-prefix"}
NAME = re.compile(r"[a-z][A-Za-z0-9_'₀-₉-]*$")
USE = re.compile(r"^(?:ghost |pub )*use ([^\s{;]+?)(?:\.\{([^}]*)\})?(?: as (\S+?))?;?$", re.M)
CLAUSE = re.compile(r"(?:\b(?:requires|ensures)\s*\*?\s*(?:\w+\s*)?|\bghost\s*(?:\w+\s*(?::\s*)?)?)\{")
GHOST_USE = re.compile(r"ghost\s+use\b[^;]*;")
SPAN = re.compile(r"`[^`\n]+`")


def snake(name):
    name = name.replace("-", "_")
    name = re.sub(r"(?<=[a-z0-9'])(?=[A-Z])", "_", name)
    return name.lower()


def read(path):
    with open(path, encoding="utf-8", newline="") as f:
        return f.read()


def comments_off(text):
    return re.sub(r"(?<!\S)--[^\n]*", "", text)


def declared(crates):
    names = collections.defaultdict(set)
    taken = set()
    for crate in crates:
        for kind in ("specs", "proofs"):
            for path in glob.glob(f"crates/{crate}/{kind}/*.antt"):
                text = comments_off(read(path))
                for m in DECLARED.finditer(text):
                    names[m.group(1)].add(path)
                for m in USE.finditer(text):
                    if not any(m.group(1).startswith(f"Rattle.{c}.") for c in crates):
                        taken |= {x.strip().split(" as ")[-1].strip("«» ") for x in (m.group(2) or "").split(",")}
    return names, taken


def table(crates):
    names, taken = declared(crates)
    rows = {name: snake(name) for name in (BESIDE + " " + ALIASES).split()} | APART
    kept = []
    for name in names:
        if not NAME.match(name):
            continue
        new = snake(name)
        if new == name or name in rows:
            continue
        if name in taken:
            kept.append(name)
            continue
        rows[name] = new
    return rows, kept, names, taken


def together(rows, names, taken):
    """Names that would be one: two rows with one new name, or a row whose new name is declared or brought in already."""
    into = collections.defaultdict(set)
    for old, new in rows.items():
        if old not in QUALIFIED:
            into[new].add(old)
    away = {old for named in APART_IN.values() for old in named}
    names = {name: where for name, where in names.items() if name not in away}
    bad = []
    for new, olds in sorted(into.items()):
        if len(olds) > 1 or new in names or new in taken:
            bad.append((new, sorted(olds), new in names, new in taken))
    return bad


def turned(text, rows):
    return TOKEN.sub(lambda m: word(m.group(0), rows), text)


def word(token, rows):
    return rows.get(token, token)


def blocks(text):
    """The stretches of a source file that are antt: ghost uses, and the braces of clauses and ghost items."""
    out = [m.span() for m in GHOST_USE.finditer(text)]
    for m in CLAUSE.finditer(text):
        if any(a <= m.start() < b for a, b in out):
            continue
        depth, at = 1, m.end()
        while depth and at < len(text):
            depth += {"{": 1, "}": -1}.get(text[at], 0)
            at += 1
        out.append((m.end(), at))
    return sorted(out)


def source(text, rows):
    out, at = [], 0
    for a, b in blocks(text):
        out += [spans(text[at:a], rows), turned(text[a:b], rows)]
        at = b
    out.append(spans(text[at:], rows))
    return re.sub(r"^( *//)(.*)$", lambda m: m.group(1) + comment(m.group(2), rows), "".join(out), flags=re.M)


def spans(text, rows):
    return SPAN.sub(lambda m: "`" + turned(m.group(0)[1:-1], rows) + "`", text)


def prose_and_code(text, rows):
    """An .antt file: its code, and in comments a word that is one of the names and no English compound."""
    out = []
    for line in text.split("\n"):
        cut = re.search(r"(?<!\S)--(?:\s|$)", line)
        code, note = (line[: cut.start()], line[cut.start() :]) if cut else (line, "")
        out.append(turned(code, rows) + comment(note, rows))
    return "\n".join(out)


def comment(text, rows):
    text = spans(text, rows)
    return TOKEN.sub(lambda m: word(m.group(0), rows) if re.search("[a-z][A-Z]", m.group(0)) else m.group(0), text)


def edit(text, rows):
    out = []
    antt = False
    for line in text.split("\n"):
        if line.startswith("file: "):
            antt = line.rstrip().endswith(".antt")
        if line.startswith(("old: ", "new: ")):
            line = turned(line, rows) if antt else line
        elif line.startswith("#"):
            line = comment(line, rows)
        out.append(line)
    return "\n".join(out)


def main():
    with open("crates.txt", encoding="utf-8") as f:
        crates = [line.split(":")[0].split()[0] for line in f if line.strip() and not line.startswith("#")]
    rows, kept, names, taken = table(crates)
    bad = together(rows, names, taken)
    for new, olds, ours, theirs in bad:
        where = sorted({p for o in olds for p in names[o]} | (names[new] if ours else set()))
        print(f"together: {' '.join(olds)} -> {new}{' (declared)' if ours else ''}{' (brought in)' if theirs else ''}: {' '.join(where)}")
    if "--list" in sys.argv[1:]:
        for old, new in sorted(rows.items()):
            print(f"{old}\t{new}")
        for name in sorted(kept):
            print(f"kept\t{name}\t{' '.join(sorted(names[name]))}")
        return
    if bad:
        sys.exit(1)
    functions = set()
    for path in glob.glob("crates/*/src/**/*.rt", recursive=True):
        functions |= set(re.findall(r"\bfn (\w+)", read(path)))
    calls = {f.replace("_", "-"): f for f in functions if "_" in f}
    n = 0
    files = [(p, prose_and_code) for p in glob.glob("crates/*/specs/*.antt") + glob.glob("crates/*/proofs/**/*.antt", recursive=True)]
    files += [(p, source) for p in glob.glob("crates/*/src/**/*.rt", recursive=True)]
    files += [(p, edit) for p in glob.glob("crates/*/must-fail/*.edit")]
    files += [(p, spans) for p in glob.glob("docs/**/*.md", recursive=True) + ["README.md"] if os.path.exists(p)]
    for path, how in files:
        old = read(path)
        mine = dict(rows)
        for where, named in APART_IN.items():
            if path.startswith(f"crates/{where}"):
                mine.update(named)
        new = old
        if re.match(r"crates/[^/]+/proofs/[^/]+/", path):
            new = re.sub(r"(?<=\.)([a-z][a-z0-9]*(?:-[a-z0-9]+)+)(?![\w'-])", lambda m: calls.get(m.group(1), m.group(1)), new)
        new = how(new, mine)
        if new != old:
            n += 1
            with open(path, "w", encoding="utf-8", newline="") as f:
                f.write(new)
    print(f"respell: {len(rows)} names, {n} files")


main()
