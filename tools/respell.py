#!/usr/bin/env python3
"""Once, after port.py: brings this repository's own definitions and lemmas to the spelling of today's Rattle.

    tools/respell.py            in specs/, proofs/, src/ and must-fail/ of every crate
    tools/respell.py --list     the names alone, old and new

1. A name in camel case is turned to snake case. It is turned wherever it stands as a whole word.
2. A dash joins two names, as in `length-drop`; a plain word is added with `_`, as in `get_or-set_same`. So a dash in a name that specs/ or a lemma
   file declares stays where a name stands on both sides of it, and is turned to `_` elsewhere.
3. A name that would fall together with another one gets `_lem`.
4. By hand: FIRST, a lemma that port.py gave the name that rule 1 gives its definition; BY_HAND, a fact in capitals.
"""
import pathlib
import re
import sys

ROOT = pathlib.Path(__file__).resolve().parent.parent
# A word of Rust or antt: not a hex numeral, not an escape of a byte string.
WORD = re.compile(r"(?<![A-Za-z0-9_\\'])[A-Za-z_][A-Za-z0-9_]*'*")
# A name of antt: it may have dashes and arrows inside.
NAME = re.compile(r"(?<![A-Za-z0-9_\\'→↔-])[A-Za-z_][A-Za-z0-9_]*'*(?:[-→↔][A-Za-z0-9_]+'*)*(?![A-Za-z0-9_'→↔-])")
CAMEL = re.compile(r"[a-z][a-z0-9]*(?:[A-Z][A-Za-z0-9]*)+")
DECLARED = re.compile(r"^(?:abbrev |unfoldable )?(?:pub )?(?:data |record |ruleset )?([^\s:({.,]+)(?: :| \(| \{| =)")
INDENTED = re.compile(r"^\s+(?:pub )?([^\s:({.,]+) : |\blet ([^\s:({.,]+) [:=]")
IMPORT = re.compile(r"^(?:pub )?(?:ghost )?use (\S+)\.\{(.*)\}")
BY_HAND = {"gap": "Gap"}
FIRST = {"same_entries": "same_entries→eq"}


def snake(name):
    return re.sub(r"(?<=[a-z0-9])([A-Z])", lambda m: "_" + m.group(1).lower(), name).lower()


def bare(text):
    return "\n".join(line.split("--")[0] for line in text.split("\n"))


def own_files(root):
    return [f for kind in ("*.antt", "*.rt", "*.edit") for f in sorted((root / "crates").rglob(kind)) if "out" not in f.parts]


def is_lemmas(file, root):
    """Whether a file declares names of its own: one of specs/, or of proofs/ outside the folder of a function."""
    parts = file.relative_to(root / "crates").parts
    return file.suffix == ".antt" and (parts[1] == "specs" or (parts[1] == "proofs" and len(parts) == 3))


def camel_names(texts):
    names = {p for f, t in texts.items() if f.suffix == ".antt" for p in WORD.findall(bare(t)) if CAMEL.fullmatch(p)}
    return names - {"nT"}  # a prefix before the fact T, as in nT→eq


def declared_names(texts, root):
    """Names that the lemma files and specs/ declare: those at the margin, and all."""
    top, every = set(), set()
    for f, t in texts.items():
        if is_lemmas(f, root):
            for line in bare(t).split("\n"):
                m = DECLARED.match(line)
                if m and m.group(1) not in ("use", "mod", "module", "open", "where"):
                    top.add(m.group(1))
                every.update(a or b for a, b in INDENTED.findall(line))
    return top, top | every


def imported_names(texts):
    """Names that come from the library."""
    return {n.split(" as ")[0].strip() for t in texts.values() for line in t.split("\n") for m in [IMPORT.match(line.strip())] if m and "Rattle.std" in m.group(1) or m and not m.group(1).startswith("Rattle.") for n in m.group(2).split(",")}


def join(name, words):
    """Of the parts of a name, the longest runs that are names stand with dashes between them; what is no name follows with `_`."""
    parts = name.split("-")
    is_name = lambda run: any(it in words for it in re.split("[→↔]", run))
    out, after_name, start = "", False, 0
    while start < len(parts):
        ends = range(len(parts), start, -1)
        end = next((e for e in ends if is_name("_".join(parts[start:e]))), start + 1)
        run = "_".join(parts[start:end])
        named = is_name(run)
        out += ("" if not out else "-" if named and after_name else "_") + run
        after_name, start = named, end
    return out


def turned(file, text, to):
    """Out of camel case, after the names of FIRST."""
    if file.suffix == ".antt":
        text = WORD.sub(lambda m: FIRST.get(m.group(0), m.group(0)), text)
    return WORD.sub(lambda m: to.get(m.group(0), m.group(0)), text)


def mapping(texts, root):
    to = {n: snake(n) for n in sorted(camel_names(texts))}
    texts = {f: turned(f, t, to) for f, t in texts.items()}
    top, every = declared_names(texts, root)
    library = imported_names(texts)
    functions = {n for f, t in texts.items() if f.suffix == ".rt" for n in re.findall(r"\bfn (\w+)", t)}
    words = {n for n in top | library | functions if "-" not in n} - {"by"}
    present = {p for f, t in texts.items() if f.suffix == ".antt" for p in NAME.findall(bare(t))}
    dashed = {}
    for n in sorted(every):
        if n in BY_HAND or "-" not in n or n in library or not NAME.fullmatch(n):
            continue
        new = join(n, words)
        if new != n:
            dashed[n] = new
    for n, new in dashed.items():
        if new in present or new in functions or list(dashed.values()).count(new) > 1:
            dashed[n] = new + "_lem"
    return to, dashed | BY_HAND


def in_spans(text, turn):
    """Turns what stands between backticks."""
    return re.sub(r"`[^`\n]+`", lambda span: turn(span.group(0)), text)


def turn_dashed(text, comment, to):
    """Turns the names of `to` in code; in comments, which begin with `comment`, in code spans alone."""
    turn = lambda s: NAME.sub(lambda m: to.get(m.group(0), m.group(0)), s)
    lines = []
    for line in text.split("\n"):
        code, mark, rest = line.partition(comment)
        lines.append(turn(code) + mark + in_spans(rest, turn))
    return "\n".join(lines)


def main():
    files = own_files(ROOT)
    texts = {f: f.read_text() for f in files}
    to, dashed = mapping(texts, ROOT)
    if sys.argv[1:] == ["--list"]:
        for old, new in (FIRST | to | dashed).items():
            print(old, new)
        return
    for f, t in texts.items():
        new = turned(f, t, to)
        new = turn_dashed(new, "--" if f.suffix == ".antt" else "//", dashed)
        if new != t:
            f.write_text(new)
    print(f"{len(to)} names out of camel case, {len(dashed)} out of dashes")


if __name__ == "__main__":
    main()
