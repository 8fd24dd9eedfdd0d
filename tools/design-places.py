#!/usr/bin/env python3
"""Counts the places of docs/DESIGN-PASS.md in crates/*/src, point by point: design-places.py [TOP] [POINT].
With a point, its places are listed. The counts are of shapes in the text: whether a place may stay is said on the page."""
import collections
import glob
import os
import re
import sys

top = sys.argv[1] if len(sys.argv) > 1 else "."
wanted = sys.argv[2] if len(sys.argv) > 2 else None
files = sorted(glob.glob(os.path.join(top, "crates/*/src/*.rt")))


def crate(path):
    return path.split("/crates/")[-1].split("/")[0] if "/crates/" in path else path.split("/")[1]


texts = {f: open(f).read() for f in files}


def functions(text):
    """(name, comment, head with clauses, body) of each function."""
    out = []
    for m in re.finditer(r"((?:^[ \t]*//[^\n]*\n)*)((?:^[ \t]*#\[[^\n]*\n)*)^([ \t]*)((?:pub )?(?:const )?(?:extern \"C\" )?fn \w+.*?)^\3\{\n(.*?)^\3\}$", text, re.S | re.M):
        name = re.search(r"fn (\w+)", m.group(4)).group(1)
        out.append((name, m.group(1), m.group(4), m.group(5)))
    for m in re.finditer(r"((?:^[ \t]*//[^\n]*\n)*)^([ \t]*)((?:pub )?fn (\w+)[^\n]*) \{\n(.*?)^\2\}$", text, re.S | re.M):
        if not any(m.group(4) == o[0] for o in out):
            out.append((m.group(4), m.group(1), m.group(3), m.group(5)))
    return out


points = collections.OrderedDict()


def put(point, path, what):
    points.setdefault(point, []).append(f"{crate(path)}: {what}")


REASONS = "TABLE_LENGTH ARRAY_LENGTH ROW_LENGTH ROW_WORDS ROW_PROBABILITY ROW_BACKOFF ROW_ORDER SHORTER_ROW RESERVED_WORD NO_ROOM ARRAY_HEAD BROKEN_NODE WORD_COUNT SHORT_SLICE BAD_STATE LINE_FORM UNLISTED_TEXT SECTION_COUNT SENTENCE_END BAD_FRAGMENT LISTING_SIZE".split()
parameters = collections.defaultdict(list)
facts = collections.defaultdict(list)
shapes = collections.defaultdict(list)
for f, text in texts.items():
    # 1a: an enum of two or three variants of which one is empty or a refusal
    for m in re.finditer(r"^(?:pub )?enum (\w+) \{\n(.*?)^\}", text, re.S | re.M):
        variants = re.findall(r"^    (\w+)\b", m.group(2), re.M)
        names = [v for v in variants]
        if len(names) <= 3 and any(v in ("Nothing", "NotInForm", "Refused", "Stuck", "Broken", "NoLog", "NotFound") for v in names):
            put("1a enums like Option or Result", f, m.group(1))
    # 1b: a struct with a flag or a number beside its values
    for m in re.finditer(r"^((?:#\[[^\n]*\n)*)(?:pub )?struct (\w+)(?:<[^>]*>)? \{\n(.*?)^\}", text, re.S | re.M):
        fields = re.findall(r"(\w+): (\w+)", m.group(3))
        for n, t in fields:
            if (n in ("number", "fault") and t == "u32") or (t == "bool" and n in ("listed", "missing", "sound", "accepted", "ended", "fits")):
                where = " (C)" if "repr(C)" in m.group(1) else ""
                put("1b a flag or number beside a value", f, f"{m.group(2)}.{n}{where}")
    # 1c: numbers for refusals
    for r in REASONS:
        for m in re.finditer(r"\b" + r + r"\b", text):
            line = text[text.rfind("\n", 0, m.start()) + 1 : text.find("\n", m.start())]
            if not line.lstrip().startswith(("//", "use", "pub const", "ROW_", "LARGEST", "ghost")):
                put("1c uses of a refusal's number", f, line.strip())
    for name, comment, head, body in functions(text):
        place = f"{name}"
        if re.search(r"-> bool", head) and re.search(r"false (?:where|if)|whether none", comment):
            put("1d bool for success", f, place)
        if re.search(r"-> (?:u32|usize|u64|i32|i64)", head) and re.search(r"\b0 (?:if|where|for) (?:there is none|it is no|nothing|none|neither|any other|another)|0 past|0 from|number of (?:rows|slots) (?:if|where) there", comment):
            put("1e a number for none", f, place)
        # 3: loops
        for m in re.finditer(r"^([ \t]*)(?:'\w+: )?(while [^{\n]*|loop) \{\n(.*?)^\1\}", body, re.S | re.M):
            counted = [v for v in re.findall(r"^[ \t]*(\w+) [+-]= 1;", m.group(3), re.M) if re.search(r"\b" + v + r"\b", m.group(2))]
            put("3a loops that count an index" if counted else "3b other while and loop", f, f"{place}: {m.group(2)}")
            for k in re.finditer(r"^([ \t]*)(?:'\w+: )?(while [^{\n]*|loop) \{\n(.*?)^\1\}", m.group(3), re.S | re.M):
                put("3b other while and loop", f, f"{place}: {k.group(2)} (inner)")
        for m in re.finditer(r"^[ \t]*for (.*) \{", body, re.M):
            put("3c for loops (for comparison)", f, f"{place}: {m.group(1)}")
        # 4: comparisons and the like by hand
        if re.search(r"fn (?:\w*_equal|\w*_less|same_\w+|in_range|smaller|larger|is_at|magnitude|fill|zero|zero_\w+|append|store_row|refused_start)\b", head):
            put("4 equality, order, copying by hand", f, place)
        # 5: parameters and facts
        named = re.findall(r"(\w+): ([^,\n)]+)", head.split("requires")[0].split("ensures")[0])
        for i in range(len(named)):
            for j in range(i + 1, len(named)):
                a, b = sorted((": ".join(named[i]), ": ".join(named[j])))
                parameters[(a, b)].append((f, name))
        for clause in re.findall(r"requires(?: \w+)? \{ (.*) \}", head):
            for fact in re.split(r" × ", clause):
                facts[fact.strip("() ")].append((f, name))
        # 6
        if re.search(r"\w+: (?:&mut |&)?\[\w+; ?\w+\]", head) and re.search(r"\b(?:count|kept|n|size|length): (?:usize|u32)", head):
            put("6 an array with its length beside it", f, place)
        # 7
        for n in re.findall(r"(\w+): bool", head.split("requires")[0].split("ensures")[0]):
            put("7 a bool that switches what is done", f, f"{place}({n})")
        # 2: the same body but for names, types and numbers
        shape = re.sub(r"\b[a-z_]\w*\b|\b[A-Z]\w*\b|\d+", "x", re.sub(r"[ \t\n]+", " ", re.sub(r"//[^\n]*", "", body)))
        if len(shape) > 60:
            shapes[shape].append((f, name))
for s, where in shapes.items():
    if len(where) > 1:
        put("2 bodies of one shape", where[0][0], ", ".join(f"{crate(f)}::{n}" for f, n in where))
for pair, where in sorted(parameters.items(), key=lambda x: -len(x[1])):
    if len(where) >= 5:
        put("5a parameters that travel together (5 or more)", where[0][0], f"{' + '.join(pair)}: {len(where)}")
for fact, where in sorted(facts.items(), key=lambda x: -len(x[1])):
    if len(where) >= 3:
        put("5b facts in three or more requires", where[0][0], f"{fact}: {len(where)}")
for f, text in texts.items():
    for m in re.finditer(r"^(?:pub )?struct (\w+) \{\n(.*?)^\}", text, re.S | re.M):
        if re.search(r"\[\w+; ?\w+\]", m.group(2)) and re.search(r"\b(?:count|kept|length): (?:usize|u32|i32)", m.group(2)):
            put("6 an array with its length beside it", f, m.group(1))
walks = glob.glob(os.path.join(top, "crates/*/proofs/*/Proof.antt"))
answers = glob.glob(os.path.join(top, "crates/*/proofs/*/Answers.antt"))
invariants = glob.glob(os.path.join(top, "crates/*/proofs/*/Invariants.antt"))
points["8a walks by hand"] = [w.split("crates/")[-1] for w in walks]
points["8b answers"] = [w.split("crates/")[-1] for w in answers]
points["8c invariants"] = [w.split("crates/")[-1] for w in invariants]
points["8d lets that only rename"] = [
    f"{p.split('crates/')[-1]}" for p in glob.glob(os.path.join(top, "crates/*/proofs/*/*.antt")) for _ in re.findall(r"let \w+ = \w+ in", open(p).read())
]
for point in sorted(points):
    if wanted is None:
        print(f"{len(points[point]):5d}  {point}")
    elif point.startswith(wanted):
        for place in points[point]:
            print(f"{point}: {place}")
