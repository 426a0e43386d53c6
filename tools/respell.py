#!/usr/bin/env python3
"""Brings the repository's own definitions, lemmas, fields and constructors to snake case, in .antt and .rt files and in must-fail edits.

usage: tools/respell.py [--names]     at the top of the repository, after the kit's port.py; --names only prints OLD NEW

Types, facts and modules keep their camel case. Names of src/, names that the check makes (after tie., goal. or in a
path from c.), strings and comments keep their spelling; a name in camel case is also renamed in comments.
"""
import os
import re
import sys

WORD = re.compile(r"[^\W\d][\w'\-]*|.", re.S)
DECLARED = re.compile(r"^(?:(?:abbrev|unfoldable|pub)\s+)*(?:(record|data|ruleset)\s+)?([^\s:=(){},]+)\s*(.*)$")
# in a module's block or below `where`
INNER = re.compile(r"^ +(?:(?:abbrev|unfoldable|pub)\s+)*(?:(record|data|ruleset)\s+)?([^\s:=(){},]+)\s*((?::|=).*)$")
FIELD = re.compile(r"^ +(?:pub )?((?:[^\s:(){}]+ )+):")
# where the rule would give a name that stands already, or a word of std that the same file reads
APART = {
    "allHold": "entries_hold",
    "allRight": "all_rows_right",
    "bit-and": "bit-bit_and",
    "bit-or": "bit-bit_or",
    "bit-xor": "bit-bit_xor",
    "cell-at": "cell_at_place",
    "fault-correct": "fault_correct_lem",
    "chosen-set": "chosen_set_lem",
    "each-reaching": "each_reaching_lem",
    "fault-bytes": "fault_bytes_lem",
    "isAside": "is_aside_test",
    "kept-set": "kept_set_lem",
    "lent-table": "lent_table_lem",
    "lowest-of": "lowest_of_lem",
    "outdone-by": "outdone_by_lem",
    "pair-mask": "pair_mask_lem",
    "test-bytes": "test_bytes_lem",
    "witness-place": "witness_place_lem",
    "oneMore": "one_more_of",
    "small-books": "small_books_lem",
    "well-formed": "well_formed_lem",
}


def files(root, endings):
    for folder, dirs, names in os.walk(os.path.join(root, "crates")):
        dirs[:] = sorted(d for d in dirs if d != "out")
        for name in sorted(names):
            if name.endswith(endings):
                yield os.path.join(folder, name)


def read(path):
    with open(path, encoding="utf-8") as f:
        return f.read()


def declared(text):
    """The names that a file declares, without those that answer a goal of the check's."""
    fields = False
    for line in text.splitlines():
        if not line or line.lstrip().startswith(("--", "use ", "mod ", "pub mod ", "unfolding", "module ")):
            continue
        head = DECLARED.match(line) if not line[0].isspace() else INNER.match(line)
        if head:
            kind, name, rest = head.groups()
            if rest.startswith((": tie.", ": goal.")) or "statement M" in rest:
                continue
            if kind or rest.startswith(":"):
                fields = kind in ("record", "data")
                yield name
                continue
        if fields and line[0].isspace() and (m := FIELD.match(line)):
            yield from m.group(1).split()


def snake(name):
    if not name[0].islower():
        return name
    return re.sub(r"([A-Z])", lambda m: "_" + m.group(1).lower(), name).replace("-", "_")


def mapping(root):
    names = {n for p in files(root, ".antt") for n in declared(read(p))} - set(APART.values())
    out = {n: APART.get(n, snake(n)) for n in names}
    out = {n: s for n, s in out.items() if n != s}
    for n, s in sorted(out.items()):
        if s in names or list(out.values()).count(s) > 1:
            print(f"left: {n} and another name are both {s}", file=sys.stderr)
    return out


def respell(text, names, comment):
    """The text with its names renamed; comment is the mark that begins a comment."""
    done = []
    for line in text.split("\n"):
        code, mark, said = line, "", ""
        if not re.match(r"(old|new|file): ", line) and comment in line:
            at = line.index(comment)
            code, said = line[:at], line[at:]
        parts = re.split(r'("(?:[^"\\]|\\.)*")', code)
        for i in range(0, len(parts), 2):
            words, before = WORD.findall(parts[i]), ""
            for k, w in enumerate(words):
                made = re.search(r"(?:\btie|\bgoal)\.$", before)
                words[k] = names.get(w, w) if not made else w
                before = (before + w)[-8:]
            parts[i] = "".join(words)
        said = re.sub(r"[^\W\d][\w']*", lambda m: names.get(m.group(0), m.group(0)), said)
        said = re.sub(r"`([^`]*)`", lambda m: "`" + "".join(names.get(w, w) for w in WORD.findall(m.group(1))) + "`", said)
        done.append("".join(parts) + said)
    return "\n".join(done)


def main(argv):
    names = mapping(".")
    if argv == ["--names"]:
        print("\n".join(f"{n} {s}" for n, s in sorted(names.items())))
        return 0
    for path in files(".", (".antt", ".rt", ".edit")):
        old = read(path)
        new = respell(old, names, "--" if path.endswith(".antt") else "//")
        if new != old:
            with open(path, "w", encoding="utf-8") as f:
                f.write(new)
    return 0


if __name__ == "__main__":
    raise SystemExit(main(sys.argv[1:]))
