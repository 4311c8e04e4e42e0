#!/usr/bin/env python3
"""Brings the repository to the spelling of today's Rattle, around the toolchain's port.py, which goes by text.

usage: tools/respell.py hide     before port.py: field names that it takes for a sign of the new spelling get a stand-in
       tools/respell.py names    then: they are back, and the names that this repository declares are in snake case
       tools/respell.py list     writes what `names` would rename, old and new
"""
import collections
import os
import re
import sys

# Fields named by calls of src/, in snake case since ever: port.py skips its older steps where it finds one of them.
HIDDEN = """row_words share_of read_u32 words_are field_of same_float field_at is_wide u8_at float_of read_u64 u32_at part_bytes
word_of string_bytes""".split()
MARK = "zqz"


def files(*ends):
    for folder, dirs, names in os.walk("crates"):
        dirs[:] = sorted(d for d in dirs if d not in ("out", "target"))
        for f in sorted(names):
            if f.endswith(ends):
                yield os.path.join(folder, f)


def write(path, old, new):
    if new != old:
        with open(path, "w", encoding="utf-8") as f:
            f.write(new)


def read(path):
    with open(path, encoding="utf-8") as f:
        return f.read()


def hide():
    word = re.compile(r"(?<![^\s(){};,])(" + "|".join(HIDDEN) + r")(?![^\s(){};,])")
    for p in files(".antt"):
        t = read(p)
        out = [l if re.match(r"\s*(--|pub mod |mod )", l) else word.sub(lambda m: m[1].replace("_", MARK), l) for l in t.split("\n")]
        write(p, t, "\n".join(out))


def show():
    hidden = re.compile("|".join(w.replace("_", MARK) for w in HIDDEN))
    for p in files(".antt"):
        t = read(p)
        write(p, t, hidden.sub(lambda m: m[0].replace(MARK, "_"), t))


# ---- names: words in snake case; types and modules, which begin with a capital, stay

NAME = r"[^\s(){}.;,@\"«»]+"
PROOF = re.compile(r"/proofs/.+/Proof\.antt$")
# A declaration of antt: a signature, at any depth; a let; an alias of a module.
SIGNED = re.compile(r"^\s*(?:(?:abbrev|unfoldable|private|pub) )*(" + NAME + r"(?: " + NAME + r")*?)(?: [({].*)? : ")
BOUND = re.compile(r"(?:\blet |\bas )(" + NAME + r")")
ITEM = re.compile(r"^(?:pub )?(?:ghost )?use ([^\s{;]+?)(?:\.\{([^}]*)\})?;?(?: as .*)?$")
OURS = re.compile(r"Rattle\.(?:hbc|replay)_")


def snake(n):
    n = re.sub(r"([a-z0-9])([A-Z])", r"\1_\2", n.replace("-", "_"))
    return n.lower()


def code(line):
    return line.split("--", 1)[0] if line.lstrip().startswith("--") or " -- " in line else line


def declared():
    names = set()
    for p in files(".antt"):
        for l in read(p).split("\n"):
            l = code(l)
            m = SIGNED.match(l)
            # the answers of a proof that walks the code have names that the toolchain makes
            if m and not re.match(r"\s*(let|use|in|where|λ|\()", l) and not (PROOF.search(p) and re.search(r" : (tie\.Need|\{M : )", l)):
                names.update(m[1].split())
            names.update(b for b in BOUND.findall(l))
    return {n for n in names if re.match(r"[a-z]", n) and snake(n) != n and not re.search(r"[^\w'-]", n)}


def of_library(text):
    """Names that a file has from the toolchain's library."""
    found = set()
    for l in text.split("\n"):
        m = ITEM.match(l)
        if m and not OURS.match(m[1]) and m[2]:
            found.update(w.split(" as ")[0].strip() for w in m[2].split(","))
    return found


TOKEN = re.compile(NAME)


def tokens(text):
    """(start, name, is behind a dot) of each word of code."""
    at = 0
    for l in text.split("\n"):
        c = code(l)
        for m in TOKEN.finditer(c):
            yield at + m.start(), m[0], m.start() > 0 and c[m.start() - 1] == "."
        at += len(l) + 1


# A lemma that port.py put into snake case, where a definition of the file has that name too.
LEMMAS = [
    ("crates/hbc_claims_c/proofs/Left.antt", "object_of"),
    ("crates/hbc_claims_function/proofs/Again.antt", "size_word"),
    ("crates/hbc_claims_function/proofs/Totals.antt", "size_word"),
    ("crates/hbc_claims_function/proofs/Stops.antt", "size_word"),
    ("crates/hbc_claims_function/proofs/Written.antt", "row_words"),
    ("crates/hbc_function/proofs/Laws.antt", "row_words"),
    ("crates/hbc_debug_callees/proofs/InOrders.antt", "in_order"),
]


def table():
    own = declared()
    texts = {p: read(p) for p in files(".antt")}
    new = {n: snake(n) for n in own}
    # two names of one file that would be one: the lemma, which has dashes, is called so
    for p, t in texts.items():
        library = of_library(t)
        met = collections.defaultdict(set)
        for _, n, behind in tokens(t):
            if not behind:
                met[snake(n) if n in own and n not in library else n].add(n)
        for s, ns in met.items():
            if len(ns) > 1:
                for n in ns:
                    if "-" in n:
                        new[n] = s + "_lem"
                if len([n for n in ns if "-" not in n]) > 1 or len([n for n in ns if "-" in n]) > 1:
                    print(f"respell: {p}: {sorted(ns)} would be one", file=sys.stderr)
    return new


def turned(text, new, library, is_proof):
    answers = set()
    if is_proof:
        answers = {m[1] for m in re.finditer(r"(?m)^(?:pub )?(" + NAME + r") : (?:tie\.Need|\{M : )", text)}
    out, at = [], 0
    for start, n, behind in tokens(text):
        if n not in new or n in library or n in answers:
            continue
        out += [text[at:start], new[n]]
        at = start + len(n)
    out.append(text[at:])
    text = "".join(out)
    # names in comments stand between backticks
    return re.sub(r"(?m)^(\s*(?:--|//).*)$", lambda m: spans(m[1], new), text)


def spans(line, new):
    return re.sub(r"`[^`]*`", lambda m: TOKEN.sub(lambda w: new.get(w[0].strip("`"), w[0].strip("`")), m[0].strip("`")).join("``"), line)


CLAUSE = re.compile(r"(?ms)^\s*(?:ghost use .*?;$|(?:requires|ensures|ghost)\b[^\n{]*\{.*?\}$)")


def in_clauses(text, new):
    def clause(m):
        return TOKEN.sub(lambda w: new.get(w[0], w[0]), m[0])

    text = CLAUSE.sub(clause, text)
    return re.sub(r"(?m)^(\s*//.*)$", lambda m: spans(m[1], new), text)


def names():
    show()
    for p, n in LEMMAS:
        t = read(p)
        write(p, t, re.sub(rf"(?<![\w.'-]){n}(?![\w'-])", n + "_lem", t))
    new = table()
    for p in files(".antt"):
        t = read(p)
        write(p, t, turned(t, new, of_library(t), PROOF.search(p)))
    for p in files(".rt"):
        t = read(p)
        write(p, t, in_clauses(t, new))


def listed():
    for old, s in sorted(table().items()):
        print(old, s)


if __name__ == "__main__":
    what = {"hide": hide, "names": names, "list": listed}.get(sys.argv[1] if len(sys.argv) == 2 else "")
    if not what:
        print(__doc__)
        raise SystemExit(2)
    what()
