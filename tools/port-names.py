#!/usr/bin/env python3
"""Brings the repository's own definitions and lemmas to the spelling of today's Rattle: words in snake case, a dash only between two names.

usage: tools/port-names.py [--list]        at the top of the repository; --list prints the table, and the names that fall together, and writes nothing

A name is turned where an .antt file of crates/ declares it. Turned are .antt files, clauses, ghost items and code spans of .rt files, must-fail edits, and code spans
of README.md, CHANGELOG.md and docs/. Functions of src/, exported C names and strings keep theirs.
"""
import os
import re
import sys

TOKEN = re.compile(r'[^\s(){}.;,@"«»\[\]|]+')
DECLARED = re.compile(r"\s*(?:(?:abbrev|opaque|unfoldable|pub|instance)\s+)*(?:ruleset\s+)?([^\s:(){},.=|@\"]+)(?:\s+(?:[({].*)?)?:(?:\s|$)")
ALONE = re.compile(r"\s*(?:(?:abbrev|opaque|unfoldable|pub)\s+)+([^\s:(){},.=|@\"]+)\s*$")
IMPORTED = re.compile(r"use (?:Rattle\.std|mathlib|native|Prim|lib|borrow|mir|denote)\b[^{]*\{([^}]*)\}")
# words of Rattle's own that stand in names which it makes
MADE = re.compile(r"(Need|After|In|Then|Else|At|Own|Live|Entry|Args)-|(invariant|decreases)-loop|μ-|\+")
SPAN = re.compile(r"(`+)(?:[^\n]|\n(?!\s*\n))*?\1")
BLOCK = re.compile(r"\bghost\s+use\b[^;]*;|\b(?:requires|ensures)\*?\s*(?:\w+\s*)?\{|\bghost\s+\w+\s*[:=]\s*\{")
# laws whose names the kit's script had turned already, and which a definition has now
TURNED = set("all_digits are_words as_many end_line from_start last_word next_word no_words number_by place_at row_words run_end table_fits word_row words_up".split())


def snake(word):
    word = re.sub(r"getD(?=$|[^a-z])", "get_or", word)
    word = re.sub(r"(?<=[a-z0-9])([A-Z])(?=[a-z]|$)", lambda m: "_" + m[1].lower(), word)
    return word


def texts(ending):
    for folder, dirs, files in os.walk("crates"):
        dirs[:] = sorted(d for d in dirs if d != "out")
        for name in sorted(files):
            if name.endswith(ending):
                yield os.path.join(folder, name)


def read(path):
    with open(path, encoding="utf-8") as it:
        return it.read()


def write(path, text, old):
    if text != old:
        with open(path, "w", encoding="utf-8") as it:
            it.write(text)


def table():
    declared, imported, words = set(), set(), set()
    for path in texts(".antt"):
        for line in read(path).split("\n"):
            line = re.sub(r"\s*--\s.*", "", line)
            m = DECLARED.match(line) or ALONE.match(line)
            if not m or m[1] in ("let", "in", "λ", "use", "mod", "where") or re.search(r": (?:tie|goal)\.Need-|: \{M : Type 1\} → statement", line):
                continue
            declared.add(m[1])
            if "/specs/" in path:
                words.add(snake(m[1]))
        for m in IMPORTED.finditer(read(path)):
            imported.update(re.split(r"[\s,]+", m[1]))
    words |= imported
    declared -= imported
    words = {w for w in words if w and "-" not in w}
    found = {}
    for name in declared:
        if MADE.match(name) or not name[0].isalnum():
            continue
        if "-" in name:
            parts = [snake(part) for part in name.split("-")]
            new, run = "", parts[0]
            for i, part in enumerate(parts[1:], 1):
                following = any("_".join(parts[i:k]) in words for k in range(i + 1, len(parts) + 1))
                if run in words and following:
                    new, run = new + run + "-", part
                else:
                    run += "_" + part
            new += run
        elif name[0].islower():
            new = snake(name)
        else:
            continue
        if new != name:
            found[name] = new
    # a law that would have its definition's name ends in _lem
    taken = {new for name, new in found.items() if "-" not in name} | {name for name in declared if name not in found}
    for name, new in found.items():
        if "-" in name and new in taken:
            found[name] = new + "_lem"
    return found


def turned(text, names):
    return TOKEN.sub(lambda m: names.get(m[0], m[0]), text)


def laws(text):
    return re.sub(r"(?<![^\s(){},;@])(" + "|".join(sorted(TURNED)) + r")(?![^\s(){},;@])", r"\1_lem", text)


def closing(text, at):
    deep = 0
    for k in range(at, len(text)):
        deep += (text[k] == "{") - (text[k] == "}")
        if not deep:
            return k + 1
    return len(text)


def antt(text, names):
    """Code, and in comments the code spans."""
    out = []
    for line in text.split("\n"):
        m = re.search(r"(?:^|(?<=\s))--(?=\s|$)", line)
        at = m.start() if m else len(line)
        out.append(turned(laws(line[:at]), names) + spans(line[at:], names))
    return "\n".join(out)


def spans(text, names):
    return SPAN.sub(lambda m: turned_span(m[0], names), text)


def turned_span(text, names):
    return re.sub(r"[^\s(){}.;,@\"«»\[\]|`]+", lambda m: names.get(m[0], m[0]), text)


def rattle(text, names):
    out, at = [], 0
    while m := BLOCK.search(text, at):
        end = m.end() if m[0].endswith(";") else closing(text, m.end() - 1)
        out += [comments(text[at : m.start()], names), turned(text[m.start() : end], names)]
        at = end
    return "".join(out) + comments(text[at:], names)


def comments(text, names):
    return re.sub(r"//[^\n]*", lambda m: spans(m[0], names), text)


def edit(text, names):
    out = []
    for line in text.split("\n"):
        m = re.match(r"(old|new): ", line)
        out.append(m[0] + turned(line[m.end() :], names) if m else spans(line, names))
    return "\n".join(out)


def main(argv):
    names = table()
    if "--list" in argv:
        tokens = set()
        for ending in (".antt", ".rt"):
            for path in texts(ending):
                tokens.update(TOKEN.findall(read(path)))
        back = {}
        for old, new in sorted(names.items()):
            print(f"{old}\t{new}")
            back.setdefault(new, []).append(old)
        for new, olds in sorted(back.items()):
            if len(olds) > 1:
                print(f"together: {new} of {' '.join(olds)}")
            if new in tokens:
                print(f"there: {new} of {' '.join(olds)}")
        return 0
    for ending, turn in ((".antt", antt), (".rt", rattle), (".edit", edit)):
        for path in texts(ending):
            old = read(path)
            write(path, turn(old, names), old)
    pages = ["README.md", "CHANGELOG.md"]
    for folder, _, files in os.walk("docs"):
        pages += [os.path.join(folder, name) for name in files if name.endswith(".md")]
    for path in pages:
        old = read(path)
        write(path, spans(old, names), old)
    return 0


if __name__ == "__main__":
    sys.exit(main(sys.argv[1:]))
