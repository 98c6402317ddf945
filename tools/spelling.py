#!/usr/bin/env python3
"""Spells the names that this repository's specs/ and proofs/ declare as today's kit does: words in snake case, joined by `_`.

usage: tools/spelling.py [--check] [ROOT]

Run once, after the kit's own script. `proofSection` becomes `proof_section` and `at-most-of-less` becomes `at_most_of_less`, in the
definitions and lemmas, in clauses, in must-fail edits and in the code spans of documents. Names of Rust (functions, parameters, fields),
types, modules, labels that Rattle makes (behind a dot), strings and inputs keep theirs. RENAMED has the names that need another word: tactics,
and names that would fall together with one that is there. It prints those that fall together and are not in RENAMED.
"""

import collections
import os
import re
import sys

RENAMED = {
    # a tactic of antt
    "assumption": "from_assumption",
    # a lemma on the definition `readableOf`
    "readable_of": "readable_of_lem",
}
DECLARED = re.compile(r"^ *(?:(?:abbrev|unfoldable|pub) )*([^\s(){}.;,@\"«»:◌]+)(?: \{[^{}\n]*\})*(?= :(?: |$))", re.M)
WORD = re.compile(r"[^\s(){}.;,@\"«»\[\]]+")
CAMEL = re.compile(r"(?<=[a-z0-9])[A-Z]")


def spelled(name):
    if not re.match(r"[a-z_]", name):
        return name
    out = CAMEL.sub(lambda m: "_" + m.group(0).lower(), name)
    return out.replace("-", "_").replace("__", "_")


def texts(root):
    for folder, dirs, files in os.walk(os.path.join(root, "crates")):
        dirs[:] = sorted(d for d in dirs if d != "out")
        for f in sorted(files):
            yield os.path.join(folder, f)


def of_function(path):
    """A proof of a function, in a folder of its own: what it declares are Rattle's labels."""
    parts = path.split("/proofs/")
    return len(parts) == 2 and "/" in parts[1]


def declared(paths):
    names = collections.defaultdict(set)
    for p in paths:
        if p.endswith(".antt") and not of_function(p):
            text = open(p, encoding="utf-8").read()
            for m in DECLARED.finditer(text):
                names[m.group(1)].add(p)
    return names


def fields(paths):
    found = set()
    for p in paths:
        if p.endswith(".antt") and not of_function(p):
            text = open(p, encoding="utf-8").read()
            for block in re.finditer(r"^pub record .*? where\n((?:  .*\n|\n)+)", text, re.M):
                found.update(m.group(1) for m in DECLARED.finditer(block.group(1)))
    return found


def turn(text, table, members):
    out, last = [], 0
    for m in WORD.finditer(text):
        word = m.group(0)
        new = table.get(word)
        if new is None:
            continue
        before = text[max(0, m.start() - 1):m.start()]
        if before == "." and word not in members:
            # a name of a module that is written out, as in A.b, turns only behind a capital
            head = re.search(r"([\w'-]+)\.$", text[:m.start()])
            if not head or not head.group(1)[:1].isupper():
                continue
        out.append(text[last:m.start()])
        out.append(new)
        last = m.end()
    out.append(text[last:])
    return "".join(out)


def turn_rt(text, table, members):
    """Clauses, ghost blocks and ghost imports of a source file."""
    out, i = [], 0
    opening = re.compile(r"(ghost use [^;]*;)|\b(?:requires|ensures|ghost)\*?\s*(?:\w+:?\s*)?\{")
    while True:
        m = opening.search(text, i)
        if not m:
            out.append(text[i:])
            return "".join(out)
        out.append(text[i:m.start()])
        if m.group(1):
            out.append(turn(m.group(1), table, members))
            i = m.end()
            continue
        depth, j = 1, m.end()
        while depth:
            depth += {"{": 1, "}": -1}.get(text[j], 0)
            j += 1
        out.append(text[m.start():m.end()])
        out.append(turn(text[m.end():j], table, members))
        i = j


def tight(line):
    """A projection without its space, and without brackets that held nothing else."""
    while True:
        new = re.sub(r"\(([\w'-]+(?:\.[\w'-]+)*) \.([\w'-]+)\)", r"\1.\2", line)
        new = re.sub(r"(?<![\w'.)]) ?\(([^\s()]+)\)(?= |$|\))(?<=\.\w\))", r" \1", new)
        if new == line:
            break
        line = new
    return re.sub(r"(?<=[\w')]) \.(?=[a-z0-9_])", ".", line)


def known(text, spelled_names):
    """A word that the kit's script turned already elsewhere."""
    return WORD.sub(lambda m: spelled(m.group(0)) if CAMEL.search(m.group(0)) and spelled(m.group(0)) in spelled_names else m.group(0), text)


def turn_edit(text, table, members, spelled_names):
    lines = text.split("\n")
    file = ""
    for k, line in enumerate(lines):
        if line.startswith("file: "):
            file = line[6:]
        elif line.startswith(("old: ", "new: ")) and file.endswith(".antt"):
            lines[k] = line[:5] + tight(known(turn(line[5:], table, members), spelled_names)).replace("_>>=_", "◌>>=◌")
        elif line.startswith(("old: ", "new: ")) and re.search(r"requires|ensures|ghost", line):
            lines[k] = line[:5] + turn_rt(line[5:], table, members)
    return "\n".join(lines)


def turn_md(text, table, members, spelled_names):
    return re.sub(r"`([^`\n]+)`", lambda m: "`" + known(turn(m.group(1), table, members), spelled_names) + "`", text)


def main(argv):
    check = "--check" in argv
    rest = [a for a in argv if a != "--check"]
    root = rest[0] if rest else "."
    paths = list(texts(root))
    names = declared(paths)
    members = fields(paths)
    for p in paths:
        if p.endswith(".antt") and not of_function(p):
            code = re.sub(r"--.*", "", open(p, encoding="utf-8").read())
            for w in WORD.findall(code):
                if re.fullmatch(r"[a-z]\w*[a-z0-9][A-Z]\w*'*", w):
                    names[w].add(p)
    defined = set(declared([p for p in paths if "/specs/" in p]))
    table = {n: RENAMED.get(n, spelled(n)) for n in names}
    spelled_defined = {table[n] for n in defined} | {n for n in names if table[n] == n}
    for n in names:
        # a lemma whose name would be that of a definition
        if "-" in n and n not in defined and table[n] in spelled_defined:
            table[n] += "_lem"
    table = {k: v for k, v in table.items() if k != v}
    groups = collections.defaultdict(set)
    for n in names:
        groups[table.get(n, n)].add(n)
    for new, olds in sorted(groups.items()):
        if len(olds) > 1:
            where = sorted({os.path.relpath(p, root) for o in olds for p in names[o]})
            print("together:", new, sorted(olds), where)
    spelled_names = {table.get(n, n) for n in names}
    for p in paths:
        if not p.endswith((".antt", ".rt", ".edit")):
            continue
        text = open(p, encoding="utf-8").read()
        words = set(WORD.findall(text))
        if p.endswith(".rt"):
            bound = set(re.findall(r"\b(\w+):(?!:)", text)) | set(re.findall(r"\b(?:const|static|type|enum|struct|fn) (\w+)", text))
        for w in sorted(words & set(table)):
            if table[w] in words and not p.endswith(".edit"):
                kind = "bound" if p.endswith(".rt") and table[w] in bound else "there"
                print("meets:", kind, w, table[w], os.path.relpath(p, root))
        new = turn(text, table, members) if p.endswith(".antt") else turn_rt(text, table, members) if p.endswith(".rt") else turn_edit(text, table, members, spelled_names)
        if new != text and not check:
            open(p, "w", encoding="utf-8").write(new)
    docs = [os.path.join(root, "README.md")] + [os.path.join(d, f) for d, _, fs in os.walk(os.path.join(root, "docs")) for f in fs if f.endswith(".md")]
    for p in docs:
        if os.path.exists(p):
            text = open(p, encoding="utf-8").read()
            new = turn_md(text, table, members, spelled_names)
            if new != text and not check:
                open(p, "w", encoding="utf-8").write(new)
    print(len(table), "names")


if __name__ == "__main__":
    main(sys.argv[1:])
