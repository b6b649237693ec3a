#!/usr/bin/env python3
"""Brings the names of this repository's own definitions and laws to today's spelling: snake case, where they were in camel case
(definitions) or joined by dashes (laws). Run once, at the top, on what the toolchain's port script has left; see docs/PORT.md.

A name goes only if a file of specs/ or proofs/ declares it, so names of the library, of the Rust code and those that the checker
makes stay. A dash stays where it joins two functions' names, as in length-nodes_of. Text that must-fail edits and documents
quote goes along. `respell.py --look` changes nothing and prints what falls together."""
import collections
import glob
import os
import re
import sys

LOOK = "--look" in sys.argv
WORD = re.compile(r"[A-Za-zμρ][A-Za-z0-9_μρ₀-₉]*(?:-[A-Za-z0-9_₀-₉]+)*'*")
CAMEL = re.compile(r"[a-z][a-z0-9_]*[A-Z][A-Za-z0-9_]*\Z")
DECLARED = re.compile(r"^(\s*)(?:(?:pub|abbrev|unfoldable|opaque|private)\s+)*(?:(?:data|record)\s+)?"
                      r"([A-Za-z][A-Za-z0-9_']*(?:-[A-Za-z0-9_']+)*)(?=\s*(?:[({][^=]*)?\s:\s)")

# P-Code's own names keep their parts together.
OPERATIONS = {
    "intSRight": "int_sright", "intSExt": "int_sext", "intSCarry": "int_scarry", "intSBorrow": "int_sborrow", "int2Comp": "int_2comp",
    "sized-isSize": "sized_is_size", "tree-isSize": "tree_is_size", "free-isTop": "free_is_top", "un-isSize": "un_is_size",
    "bin-isSize": "bin_is_size", "isSub-le": "is_sub_le",
}
# Both parts are functions.
JOINED = {"length-nodesOf": "length-nodes_of", "at-nodesOf": "at-nodes_of", "length-wordsOf": "length-words_of", "length-words_of": "length-words_of"}
# Laws that would have a definition's name.
LAWS = {
    "is-size": "is_size_lem", "view-constant": "view_constant_lem", "payload-at": "payload_at_lem", "on-left": "on_left_lem",
    "on-right": "on_right_lem", "on-equal": "on_equal_lem", "sub-inner": "sub_inner_lem", "add-inner": "add_inner_lem",
    "no-wider": "no_wider_lem", "size-seen": "size_seen_lem",
}
# Those that the port script had turned before, and in which crates' files.
TURNED = {"theory": {"same_size": "same_size_lem", "one_size": "one_size_lem"}, "formed": {"row_fits": "row_fits_lem"}}

CYCLE = "add_rule_after_one_after_two_child_dispatch_visit_visit_one_visit_two_sext_rule_sub_rule"


def snake(name):
    if name in LAWS:
        return LAWS[name]
    if name in JOINED:
        return JOINED[name]
    if name in OPERATIONS:
        return OPERATIONS[name]
    for old, new in OPERATIONS.items():
        if name.startswith(old + "-"):
            name = new + name[len(old):]
    name = re.sub(r"(?<=[a-z0-9])([A-Z])", lambda m: "_" + m[1].lower(), name)
    return name.replace("-", "_")


def read(path):
    with open(path, encoding="utf-8") as it:
        return it.read()


def walked(path):
    return path.endswith("/Proof.antt")


def names_of(text):
    """The names that a file declares, fields and local ones too."""
    return {m[2] for m in map(DECLARED.match, text.split("\n")) if m} | set(re.findall(r"\blet ([a-zA-Z][\w'-]*) [:=]", text)) \
        | set(re.findall(r"[{;(]\s*([a-z][\w'-]*) [:=] ", text)) | set(re.findall(r"^\s+([a-z][\w'-]*) [:=] ", text, flags=re.M))


def imported(text, ours):
    """The names that a file brings in from this repository's specs/ and proofs/, or from elsewhere."""
    got = set()
    for crate, part, names in re.findall(r"\buse Rattle\.(\w+)\.(\w+)\S*?\.\{([^}]*)\}", text):
        if (crate in ours and part in ("specs", "proofs")) == (ours is not OTHERS):
            got |= {w for n in names.split(",") for w in n.split(" as ") for w in [w.strip()]}
    return got


OTHERS = set()


def main():
    ours = {line.split(":")[0].split()[0] for line in read("crates.txt").split("\n") if ":" in line and not line.startswith("#")}
    antt = [p for p in sorted(glob.glob("crates/**/*.antt", recursive=True)) if "/out/" not in p]
    laws = [p for p in antt if not walked(p)]
    texts = {p: read(p) for p in antt}
    declared = set()
    for p in laws:
        declared |= names_of(texts[p]) | {w for w in WORD.findall(re.sub(r"--.*", "", texts[p])) if "-" in w or re.search("[a-z]O", w)}
    foreign = set()
    for p in antt:
        for lib, names in re.findall(r"\buse (?:Rattle\.)?([\w.+-]+)\.\{([^}]*)\}", texts[p]):
            if lib.split(".")[0] not in ours:
                foreign |= {w.strip() for n in names.split(",") for w in n.split(" as ")}
    table = {n: snake(n) for n in declared if n not in foreign and (CAMEL.match(n) or "-" in n) and snake(n) != n}
    turned = collections.defaultdict(set)
    for old, new in table.items():
        turned[new].add(old)

    report, made = [], {}
    for p in antt:
        words = set(WORD.findall(texts[p]))
        if walked(p):
            # what the checker makes stands beside what is cited
            scope = {w for _, _, names in re.findall(r"\buse Rattle\.(\w+)\.(specs|proofs)[\w.+-]*\.\{([^}]*)\}", texts[p]) for n in names.split(",") for w in map(str.strip, n.split(" as "))}
            own = {old for old in words & set(table) if old in scope or CAMEL.match(old)}
            fields = {old for old in words & set(table) if re.search(r"\." + re.escape(old) + r"(?![\w-])", texts[p])}
        else:
            own = words & set(table)
            fields = set()
        own = {o for o in own if not re.search(r"^abbrev pub (invariant|decreases)-", o)}
        turn = TURNED.get(p.split("/")[1], {})
        texts[p] = re.sub(r"(?<![\w.-])(" + "|".join(turn) + r")(?![\w-])", lambda m: turn[m[1]], texts[p]) if turn else texts[p]
        words = set(WORD.findall(texts[p]))
        seen = collections.defaultdict(set)
        for w in words:
            seen[table[w] if w in own else w].add(w)
        for new, olds in seen.items():
            if len(olds) > 1:
                report.append((p, new, sorted(olds)))
        made[p] = WORD.sub(lambda m: table[m[0]] if m[0] in own else m[0], texts[p])
        if fields - own:
            report.append((p, "left, maybe fields", sorted(fields - own)))
    for p in sorted(glob.glob("crates/*/src/**/*.rt", recursive=True)):
        text = read(p)
        made[p] = WORD.sub(lambda m: table[m[0]] if m[0] in table and CAMEL.match(m[0]) else m[0], text).replace(CYCLE, "visits")
        words = set(WORD.findall(text))
        seen = collections.defaultdict(set)
        for w in words:
            seen[table[w] if w in table and CAMEL.match(w) else w].add(w)
        for new, olds in seen.items():
            if len(olds) > 1:
                report.append((p, new, sorted(olds)))
    for p in sorted(glob.glob("crates/*/must-fail/*.edit")):
        made[p] = WORD.sub(lambda m: table.get(m[0], m[0]), read(p))
    for p in sorted(glob.glob("docs/*.md")) + ["README.md"]:
        if os.path.basename(p) == "PORT.md":
            continue
        made[p] = re.sub(r"`[^`\n]*`", lambda q: q[0] if "must-fail" in q[0] or "/" in q[0] else WORD.sub(lambda m: table.get(m[0], m[0]), q[0]), read(p))
    for p, new, olds in report:
        print(f"{p}: {new}: {' '.join(olds)}")
    left = collections.Counter(w for p in laws for w in WORD.findall(made[p]) if (CAMEL.match(w)) and w not in foreign)
    print("camel case that is left:", dict(left))
    left = collections.Counter(w for p in laws for w in WORD.findall(re.sub(r"--.*", "", made[p])) if "-" in w and w not in foreign)
    print("dashes that are left:", dict(left))
    if LOOK:
        return
    for p, text in made.items():
        if text != read(p):
            with open(p, "w", encoding="utf-8") as it:
                it.write(text)
    for old in glob.glob("crates/*/proofs/+" + CYCLE):
        os.rename(old, os.path.dirname(old) + "/+visits")


main()
