"""Brings the names of definitions and lemmas to today's spelling: words in snake case, types and modules in camel case.

usage: python3 tools/spelling        at the top of the repository, once, after the kit's own port.py

names.tsv has a row for each name: old, a tab, new. A name is a whole word of a definition, a proof, a clause or a
`ghost use` item. In comments, in documents and in must-fail edits a name in camel case turns wherever it stands, and
one with a dash only between backticks or in an edit. Rust's own code, strings, inputs and outputs stay. A lemma that
would have got its function's name ends in `_lem`.

A file specs/Contracts.antt becomes specs/Promises.antt, since Rattle makes a module `specs.contracts` of its own.
Run on what it wrote it changes nothing; of later texts it would turn names back that were mended by hand
(docs/PORT.md).
"""

import os
import re

HERE = os.path.dirname(os.path.abspath(__file__))
TOP = os.path.dirname(os.path.dirname(HERE))
WORD = re.compile(r"[^\s(){}.;,@\"«»]+")
COMMENT = re.compile(r"--[^\n]*|//[^\n]*")
SPAN = re.compile(r"`[^`\n]*`")
CLAUSE = re.compile(r"(?:requires|ensures)\s*(?:\w+\s*)?\{|ghost use\b")


def rows():
    with open(os.path.join(HERE, "names.tsv"), encoding="utf-8") as f:
        return dict(line.rstrip("\n").split("\t") for line in f if line.strip())


TABLE = rows()
CAMEL = {old: new for old, new in TABLE.items() if "-" not in old}
BARE = re.compile(r"[^\s(){}.;,@\"«»`:'’]+")


def turn(text, table=TABLE, word=WORD):
    def one(m):
        bare = m[0].rstrip("'")
        return table[bare] + m[0][len(bare):] if bare in table else m[0]

    return word.sub(one, text)


def prose(text):
    """Text for people: names in camel case anywhere, names with a dash between backticks."""
    out, at = [], 0
    for m in SPAN.finditer(text):
        out += [turn(text[at:m.start()], CAMEL, BARE), turn(m[0], TABLE, BARE)]
        at = m.end()
    return "".join(out + [turn(text[at:], CAMEL, BARE)])


def antt(text):
    out, at = [], 0
    for m in COMMENT.finditer(text):
        if m[0].startswith("//") or m.start() and text[m.start() - 1] not in " \n":
            continue
        out += [turn(text[at:m.start()]), prose(m[0])]
        at = m.end()
    return promises("".join(out + [turn(text[at:])]))


def closing(text, at):
    depth = 1
    while depth:
        depth += {"{": 1, "}": -1}.get(text[at], 0)
        at += 1
    return at


def rattle(text):
    """The clauses and `ghost use` items as definitions are, the comments as prose; the rest stays."""
    out, at = [], 0
    for m in re.finditer(COMMENT.pattern + "|" + CLAUSE.pattern, text):
        if m.start() < at or m[0].startswith("--"):
            continue
        if m[0].startswith("//"):
            out += [text[at:m.start()], prose(m[0])]
            at = m.end()
            continue
        end = text.index(";", m.end()) if m[0].startswith("ghost") else closing(text, m.end())
        out += [text[at:m.end()], turn(text[m.end():end])]
        at = end
    return promises("".join(out + [text[at:]]))


def promises(text):
    text = re.sub(r"(Rattle\.\w+\.specs\.)Contracts\b", r"\1Promises", text)
    return re.sub(r"(?m)^pub mod Contracts$", "pub mod Promises", text)


def edit(text):
    return turn(text).replace("specs/Contracts.antt", "specs/Promises.antt")


def document(text):
    return prose(text).replace("specs/Contracts", "specs/Promises")


def below(folder, ends):
    for where, _, files in sorted(os.walk(os.path.join(TOP, folder))):
        if "/out" not in where and "/target" not in where:
            yield from (os.path.join(where, f) for f in sorted(files) if f.endswith(ends))


def rewrite(path, how):
    with open(path, encoding="utf-8") as f:
        old = f.read()
    new = how(old)
    if new != old:
        with open(path, "w", encoding="utf-8") as f:
            f.write(new)


def main():
    for path in [*below("crates", ".antt")]:
        rewrite(path, antt)
        if path.endswith("/specs/Contracts.antt"):
            os.rename(path, path.replace("/Contracts.antt", "/Promises.antt"))
    for path in [*below("crates", ".rt")]:
        rewrite(path, rattle)
    for path in [*below("crates", ".edit")]:
        rewrite(path, edit)
    for path in [*below("docs", ".md"), os.path.join(TOP, "README.md")]:
        rewrite(path, document)


main()
