#!/usr/bin/env python3
"""Counts the places of docs/DESIGN-PASS.md, point by point: each as point, kind, file:line and text, then the totals.

    tools/count_places.py [POINT ..]                  in the tree, from the top of the repository
    tools/count_places.py --at COMMIT [POINT ..]      in the tree of that commit
    tools/count_places.py --near                      pairs of functions that are nearly the same text, to look for twins that no rule names

A kind is counted in the crates of the engine and in the programs (crates named *_vectors) apart. A place may stand under two points.
"""
import collections
import difflib
import glob
import re
import subprocess
import sys

COLUMNS = "count desks numbers boxes pasts stamps tally heads last before waiting wdesks wnumbers wboxes wpasts wstamps ds ns".split()
# Twins that differ in more than the rule of point 2 allows for, found by reading and by --near.
NEAR = {
    "walks from place to place": "trace settle count/in_past follow ask",
    "switches on the edition": "head_in past_of head_size version_of past_count edition count/numbers kaungimewe_write kaungimewe_write2",
    "gaps closed": "close close_desks close_boxes",
    "integers of bytes": "get2 get4",
    "one value of several in a run": "row_at put_row box_at put_box",
    "a mark searched down": "find/waiting place_below",
    "Apart and Evidence at a desk": "apart/desk apart_list/desk find_apart/desk with_count evidence/desk evidence_list/desk find_evidence/desk with_evidence",
    "Apart and Evidence for C": "find_apart/abi answer_of kaungimewe_apart_lent find_evidence/abi evidence_of kaungimewe_evidence_lent",
    "answers with an empty list": "refused/concurrent alone",
    "answers printed": "created/show marked/show received/show related/show counted/show evidenced/show lowest/show written/desk_vectors",
    "bytes printed": "bytes/show",
    "frames altered": "sized byte two four bytes/reads fours counted/second entries/frame_vectors rising/writes rising_written",
    "integers put": "put2 put4",
}
# Parameters that travel together, beside a desk's columns and a mark's desk and number.
TOGETHER = {"entries below": "two rows that count together", "start end low high": "a box's values apart", "frames slot": "frames and a slot"}
CONVERSIONS = ("number/frame created/numbers marked/numbers received/numbers related/numbers evidenced/numbers counted/numbers lowest/numbers written/numbers "
               "read/numbers past_from past_number mark_in/in_place write_mark named fields/abi evidence_of answer_of fill mark_id/desk_vectors").split()


def files(pattern, commit):
    """The files of a pattern, in the tree or in that of a commit, each with its lines."""
    if commit is None:
        return [(path, open(path, encoding="utf-8").read().split("\n")) for path in sorted(glob.glob(pattern, recursive=True))]
    rule = re.compile("^" + re.escape(pattern).replace(r"\*\*/", "(?:.*/)?").replace(r"\*", "[^/]*") + "$")
    run = lambda *words: subprocess.run(["git", *words], check=True, capture_output=True, encoding="utf-8").stdout
    paths = [path for path in run("ls-tree", "-r", "--name-only", commit).split("\n") if rule.match(path)]
    return [(path, run("show", f"{commit}:{path}").split("\n")) for path in sorted(paths)]


class Function:
    """A function as the formatter lays it out: name, first line, signature without clauses, clauses, body."""

    def __init__(self, path, lines, at, name):
        indent = re.match(r"\s*", lines[at]).group()
        clause = re.compile(r"\s*(requires|ensures)\b")
        opens = lambda i: re.search(r"(^|\s)\{\}?$", lines[i]) is not None and not clause.match(lines[i])
        one_line = re.search(r"^(?!.*\b(?:requires|ensures) ).*\) .*\{ (.+) \}$", lines[at])
        head = at if one_line else next((i for i in range(at, len(lines)) if opens(i) or lines[i].endswith(";")), at)
        self.whole = one_line is not None or opens(head)
        empty = one_line or lines[head].endswith("{}")
        end = head if empty or not self.whole else next(i for i in range(head + 1, len(lines)) if lines[i] == indent + "}")
        first = next((i for i in range(at, head + 1) if clause.match(lines[i])), head + 1)
        self.path, self.line, self.name = path, at + 1, name
        self.signature = re.sub(r"\s*\{(\}| .*\})?$", "", " ".join(line.strip() for line in lines[at:min(first, head + 1)]))
        self.clauses = "\n".join(lines[first:head])
        self.start, self.body = head + 1, [one_line.group(1)] if one_line else lines[head + 1:end]
        self.text = "\n".join(self.body)
        inside = re.search(r"\((.*)\)", self.signature)
        self.parameters = re.findall(r"(\w+): ((?:&(?:'a )?(?:mut )?)?(?:\[[^\]]*\]|[\w:<>]+(?: \w+)?))", inside.group(1) if inside else "")

    def called(self, word):
        """Is this the function of a name, or of a name and a part of its path?"""
        name, _, part = word.partition("/")
        return name == self.name and re.search(rf"\b{part}\b", self.path.removeprefix("crates/")) is not None


def functions(sources):
    out = []
    for path, lines in sources:
        for at, line in enumerate(lines):
            m = re.match(r"\s*(?:pub(?:\(crate\))? )?(?:const )?(?:extern \"C\" )?fn (\w+)", line)
            if m:
                out.append(Function(path, lines, at, m.group(1)))
    return [f for f in out if f.whole]


def types(sources):
    """Structs and enums: kind, name, path, line, the lines inside."""
    out = []
    for path, lines in sources:
        for at, line in enumerate(lines):
            m = re.match(r"(?:pub(?:\(crate\))? )?(struct|enum) (\w+)[^;]*\{$", line)
            if m:
                end = next(i for i in range(at, len(lines)) if lines[i] == "}")
                out.append((m.group(1), m.group(2), path, at + 1, [x.strip() for x in lines[at + 1:end] if x.strip() and not x.strip().startswith("//")]))
    return out


def plain(text):
    """The text with names numbered in the order of their first use, and types, constants and numbers as one."""
    words = set("fn pub if else while for in let mut match return as self Self struct enum impl true false extern crate loop break continue".split())
    seen, out = {}, []
    for token in re.findall(r"\"[^\"]*\"|[A-Za-z_]\w*|\d\w*|[^\s\w]", re.sub(r"'a ?|<>|^pub(\(crate\))? ", "", text)):
        if token.startswith('"'):
            out.append("constant")
        elif token in words or not re.match(r"\w", token):
            out.append(token)
        elif re.match(r"(u8|u16|u32|u64|usize)$", token):
            out.append("type")
        elif re.match(r"(\d|[A-Z][A-Z0-9_]*$)", token):
            out.append("constant")
        else:
            out.append(f"name{seen.setdefault(token, len(seen))}")
    return re.sub(r", ([)}\]])", r"\1", " ".join(out))


def whiles(function):
    """The loops of a function that are no `for`: line, and the statements inside."""
    for i, line in enumerate(function.body):
        if re.match(r"\s*(while\b(?! let).*|loop) \{$", line):
            indent = re.match(r"\s*", line).group()
            end = next(j for j in range(i, len(function.body)) if function.body[j] == indent + "}")
            yield function.start + i + 1, line.strip(), [x.strip() for x in function.body[i + 1:end]]


def conjuncts(function):
    """What the requires of a function ask, one by one."""
    for text in re.findall(r"requires(?: \w+)? \{(.*?)\}\s*(?=ensures|requires|$)", function.clauses.replace("\n", " "), re.S):
        depth, part = 0, ""
        for c in text + "×":
            depth += (c == "(") - (c == ")")
            if c == "×" and depth == 0:
                yield part.strip()
                part = ""
            else:
                part += c


def fact(conjunct):
    """The fact that a conjunct states, whatever value it speaks of."""
    word = re.match(r"\(*([A-Z]\w+)", conjunct)
    if word:
        return word.group(1)
    if re.match(r"\((1 ≤ ([\w.]*desk|own)|([\w.]*desk|own) ≤ width)\)$", conjunct):
        return "a desk's number is 1 to 16"
    if re.match(r"\(?[\w.]+ [<≤] (places|waiting_places)\)?$", conjunct):
        return "a place, or a count of places"
    if re.match(r"\(?length [\w.]+ ≡ width\)?$", conjunct):
        return "the length of a row"
    if re.match(r"\(?\d+ ≤ length [\w.]+\)?$", conjunct):
        return "a frame has a head"
    return "a part's ends in order" if re.match(r"\([a-z]+ ≤ (?!width)[a-z]+\)$", conjunct) else None


def point1(fns, tys, sources):
    for kind, name, path, line, inside in tys:
        if kind == "enum":
            payload = [re.sub(r"^\w+", "", x).rstrip(",") for x in inside]
            if "(Refusal)" in payload or (len(payload) == 2 and sorted(p != "" for p in payload) == [False, True]):
                yield "enum of the shape of Result or Option", path, line, name
        elif len(inside) > 1 and any(re.match(r"(pub )?(answer|found): ", x) for x in inside):
            yield "value beside an answer", path, line, name
    for path, lines in sources:
        for at, text in enumerate(lines):
            if re.match(r"\s+pub (refusal|kind|relation|edition): u8,", text):
                yield "number for a kind or a refusal", path, at + 1, text.strip()
            if re.match(r"\s+(pub )?(past: u16|(pasts|heads|last|before): \[u16; \w+\]),$", text) and "fn" not in "".join(lines[max(0, at - 12):at]):
                yield "number of which 0 says that there is none", path, at + 1, text.strip()
            m = re.search(r"::Refused\((\w+)\) =>", text)
            if m and re.search(rf"::Refused\({m.group(1)}\)", text[m.end():] + " ".join(lines[at + 1:at + 2])):
                yield "refusal handed on by hand", path, at + 1, text.strip()
    for f in fns:
        if re.search(r"-> u8$", f.signature) and re.search(r"=> \d+,", f.text):
            yield "number for a kind or a refusal", f.path, f.line, f"fn {f.name}"
        if re.search(r"-> (usize|u16|u8)$", f.signature):
            last = f.body[-1].strip() if f.body else ""
            early = re.search(r"return (PLACES|WIDTH|WAITING|0|1);", f.text) or re.search(r"\.len\(\) \{\s*return \w+\[\w+\];\s*\}\s*0$", f.text)
            loop = any("return" in " ".join(inside) for _, _, inside in whiles(f)) and re.match(r"\w+$", last)
            best = re.search(r"let mut best = count;", f.text)
            if early or loop or best:
                yield "result of which one number says that there is none", f.path, f.line, f"fn {f.name}"


        if re.search(r"&\w+\[0?\.\.0\]", f.text):
            yield "empty part that says that there is none", f.path, f.line, f"fn {f.name}"


def point2(fns, tys, sources):
    alike = collections.defaultdict(list)
    for f in fns:
        if f.text.strip() and not re.search(r"_cases?$|^relations$", f.name):
            alike[plain(f.signature + " {" + f.text + "}")].append((f.path, f.line, f"fn {f.name}"))
    for kind, name, path, line, inside in tys:
        if kind == "struct":
            fields = [re.match(r"(?:pub )?(\w+): ", x).group(1) for x in inside if re.match(r"(?:pub )?\w+: ", x)]
            if len(fields) > 1:
                alike["struct " + " ".join(fields)].append((path, line, name))
            for size in {x for y in inside for x in re.findall(r": \[\w+; (\w+)\]", y)}:
                columns = sorted(f for f, x in zip(fields, inside) if re.search(r"\[\w+; " + size + r"\b", x) and f in COLUMNS[:6])
                if len(columns) > 2:
                    alike["columns"].append((path, line, f"{name}: columns of {size}"))
        else:
            shape = [re.sub(r"^\w+", "", x) for x in inside]
            if "(Refusal)," in shape:
                alike["enum " + " ".join(shape)].append((path, line, name))
    found = set()
    for key, group in sorted(alike.items(), key=lambda item: item[1]):
        if len(group) > 1:
            for path, line, name in group:
                found.add((path, line))
                yield "same but for types, sizes and constants", path, line, f"{name}   with {group[0][2] if (path, line) != group[0][:2] else group[1][2]}"
    for group, words in NEAR.items():
        for f in fns:
            if any(f.called(word) for word in words.split()) and (f.path, f.line) not in found:
                yield group, f.path, f.line, f"fn {f.name}"
    for path, lines in sources:
        for at, text in enumerate(lines):
            if re.match(r"pub const HEAD_\d", text):
                yield "switches on the edition", path, at + 1, text
            if re.match(r"(pub )?const FILL: u8", text):
                yield "bytes printed", path, at + 1, text


def point3(fns, tys, sources):
    for f in fns:
        for line, head, inside in whiles(f):
            yield "loop with an index by hand", f.path, line, f"{f.name}: {head}"


def point4(fns, tys, sources):
    store = re.compile(r"[a-z][\w.]*\[[^\]]*\] = [a-z][\w.]*\[[^\]]*\];$")
    for f in fns:
        arguments = re.search(r"\((.*)\)", f.signature)
        if re.match(r"same_", f.name) and f.signature.endswith("-> bool"):
            yield "equality", f.path, f.line, f"fn {f.name}"
        for i, text in enumerate(f.body[:-1]):
            if re.search(r"if (numbers|desks)\[\w+\] == ", text) and re.search(r"if (numbers|desks)\[\w+\] == ", f.body[i + 1]):
                yield "equality", f.path, f.start + i + 1, f"{f.name}: {text.strip()}"
        if re.match(r"if (\w+) < (\w+) \{ (\1|\2) \} else \{ (\1|\2) \}$", f.text.strip()):
            yield "order", f.path, f.line, f"fn {f.name}"
        for line, _, inside in whiles(f):
            moves = [x for x in inside if not re.match(r"let |\w+ \+= 1;|[\w.]+ = k \+ 1;", x)]
            if moves and all(store.match(x) for x in moves):
                yield "copying", f.path, line, f"fn {f.name}"
        parts = [x for x in f.body if re.match(r"\s+\w+\[base( \+ \d)?\] = \w+\.\w+;|\s+\w+: \w+\[base( \+ \d)?\],", x)]
        moved = [x for x in f.body if re.match(r"\s+let (mut )?(\w+) = self\.\2;", x)]
        whole = re.search(r"\((\w+): (\w+),", f.signature)
        again = whole and f.signature.endswith(f"-> {whole.group(2)}") and len(re.findall(rf"\b{whole.group(1)}\.\w+", f.text)) > 2
        if len(parts) > 2 or len(moved) > 4 or again:
            yield "copying", f.path, f.line, f"fn {f.name}"
        if re.match(r"\w+ as (usize|u32|u64)$", f.text.strip()):
            yield "conversion", f.path, f.line, f"fn {f.name}"
        elif re.search(r"[*/%] (256|65536)\b", f.text):
            yield "conversion", f.path, f.line, f"fn {f.name} (bytes)"
        elif re.search(r"Past::Unsaid => (0|1|HEAD_1),", f.text) or any(f.called(word) for word in CONVERSIONS):
            yield "conversion", f.path, f.line, f"fn {f.name}"
        if "rt: &impl Print" in f.signature and "Desk" not in f.signature and not re.search(r"\b(calls|frames)::", f.text) \
                and (f.path.endswith("/show.rt") or re.search(r"\bshow::(number|words|bytes)\(|print!\(", f.text)):
            yield "printing", f.path, f.line, f"fn {f.name}"


def point5(fns, tys, sources):
    owners = collections.defaultdict(set)
    for f in fns:
        for part in conjuncts(f):
            if fact(part):
                owners[fact(part)].add((f.path, f.line))
    pair = re.compile(r"\b(\w+): u8, (n|m|number): u16\b")
    for f in fns:
        arrays = [name for name, kind in f.parameters if name in COLUMNS and ("&" in kind or kind == "usize")]
        if len(arrays) > 1:
            yield "parameters that travel together", f.path, f.line, f"fn {f.name}: {len(arrays)}"
        names = {name for name, _ in f.parameters}
        for group, kind in TOGETHER.items():
            if set(group.split()) <= names:
                yield kind, f.path, f.line, f"fn {f.name}"
        asked = {fact(part) for part in conjuncts(f)}
        for name in sorted(owners):
            if len(owners[name]) > 2 and (name in asked or re.search(rf"\b{name}\b", f.clauses)):
                yield f"fact: {name}", f.path, f.line, f"fn {f.name}"
        if pair.search(f.signature):
            yield "desk and number of a mark apart", f.path, f.line, f"fn {f.name}: {', '.join(a + ' ' + b for a, b in pair.findall(f.signature))}"


def point6(fns, tys, sources):
    for kind, name, path, line, inside in tys:
        arrays = [x for x in inside if re.search(r": \[.*; .*\]", x)]
        if any(re.match(r"(pub )?(count|size): usize", x) for x in inside) and arrays:
            yield "arrays with a count beside", path, line, f"{name}: {len(arrays)} arrays"
        for x in inside:
            if re.search(r"; (PLACES|WAITING) \* \w+\]|; CELLS\]", x):
                yield "array of arrays, flat", path, next(n + 1 for n, y in enumerate(dict(sources)[path]) if n >= line and y.strip() == x), f"{name}: {x}"
            if re.match(r"(pub )?(last|before): \[u16; \w+\]", x):
                yield "arena of indices", path, next(n + 1 for n, y in enumerate(dict(sources)[path]) if n >= line and y.strip() == x), f"{name}: {x}"
    for f in fns:
        if {"ds", "ns"} <= {name for name, _ in f.parameters}:
            yield "buffers with a length beside", f.path, f.line, f"fn {f.name}"
        for i, text in enumerate(f.body):
            if re.search(r"\* (WIDTH|BOX|ROOM)\b", text) and "; " not in text.rstrip(";"):
                yield "array of arrays, flat", f.path, f.start + i + 1, f"{f.name}: {text.strip()}"
            if re.search(r"= \[\w+; (CELLS|[\w:]+ \* (frames::)?ROOM)\];", text):
                yield "array of arrays, flat", f.path, f.start + i + 1, f"{f.name}: {text.strip()}"
            if re.search(r"let mut (ds|ns) = |= head_of\(", text):
                yield "buffers with a length beside", f.path, f.start + i + 1, f"{f.name}: {text.strip()}"


def point7(fns, tys, sources):
    for kind, name, path, line, inside in tys:
        if kind == "enum" and all(re.match(r"\w+,$", x) for x in inside) and not any(name == "Refusal" or f"{name}::" in f.text and f.path != path for f in fns):
            yield "enum that only says which step runs", path, line, name
    for f in fns:
        if re.search(r"\bfn\(", f.signature + f.text):
            yield "function pointer", f.path, f.line, f"fn {f.name}"


def point8(proofs, specs):
    """Answers, answers of one text, and lemmas whose statements name nothing of this repository."""
    own, lemmas, bodies = set(), [], collections.defaultdict(list)
    for path, lines in specs + proofs:
        for text in lines:
            if re.match(r"  \S+ : .*→", text):
                own.add(text.split()[0])
            m = re.match(r"(?:abbrev |unfoldable |unfolding )?(?:pub )?(?:abbrev |unfoldable )?(?:(?:record|data|ruleset) )?([^\s:(){}]+)(?= :| \(| where)", text)
            if m and m.group(1) not in ("use", "let", "pub", "rw"):
                own.add(m.group(1))
    for path, lines in proofs:
        name = path.rsplit("/", 1)[1]
        flat = len(path.split("/")) == 4
        for at, text in enumerate(lines):
            m = re.match(r"(?:abbrev )?(?:pub )?([^\s:]+) : (.*)", text)
            if not m:
                continue
            statement, rest = m.group(2), at + 1
            while rest < len(lines) and lines[rest].strip() and not lines[rest].startswith((m.group(1) + " ", "unfolding", "pub ", "abbrev ", "--")):
                statement += " " + lines[rest].strip()
                rest += 1
            if re.search(r"\bgoal\.", statement):
                yield "answer" if name == "Answers.antt" else "measure" if m.group(1).startswith("decreases") else "invariant", path, at + 1, m.group(1)
                body = []
                while rest < len(lines) and lines[rest].strip():
                    body.append(lines[rest].strip())
                    rest += 1
                if name == "Answers.antt":
                    text = " ".join(body).replace(m.group(1), "answer")
                    bodies[re.sub(r"\b[a-z]\.[\w.+-]+", "part", text)].append((path, at + 1, m.group(1)))
            elif flat and name not in ("Uses.antt", "Lib.antt") and re.search(r"[≡≤<¬⊎]|\bT \S", statement):
                binders = set(re.findall(r"[(λ{] ?((?:[^\s:(){}.]+ )+)[:.]", statement))
                bound = {w for b in binders for w in b.split()}
                words = set(re.findall(r"[^\s(){},:;.×→≡⊎¬&|+*<>=≤-][^\s(){},:;×→≡⊎¬&|+*<>=≤]*", statement))
                if not words & (own - bound) and not any(re.match(r"[A-Z]\w+$", w) and w not in ("List", "Bool", "Type") for w in words):
                    lemmas.append((path, at + 1, m.group(1)))
    for body, group in sorted(bodies.items(), key=lambda item: item[1]):
        if len(group) > 2:
            for path, line, name in group:
                yield "answer of the same text as two others or more, but for the goal's parts", path, line, name
    for path, line, name in lemmas:
        yield "lemma that names nothing of this repository", path, line, name


def main():
    words = sys.argv[1:]
    commit = words.pop(words.index("--at") + 1) if "--at" in words else None
    wanted = {int(word) for word in words if word.isdigit()} or set(range(1, 9))
    sources = files("crates/*/src/**/*.rt", commit)
    fns, tys = functions(sources), types(sources)
    if "--near" in words:
        texts = [(f, plain(f.text).split()) for f in fns]
        for i, (f, a) in enumerate(texts):
            for g, b in texts[i + 1:]:
                if min(len(a), len(b)) > 17 and min(len(a), len(b)) > 0.7 * max(len(a), len(b)):
                    ratio = difflib.SequenceMatcher(None, a, b, autojunk=False).ratio()
                    if ratio >= 0.8:
                        print(f"{ratio:.2f}  {f.path}:{f.line} {f.name}  {g.path}:{g.line} {g.name}")
        return
    for number in sorted(wanted):
        if number == 8:
            places = list(point8(files("crates/*/proofs/**/*.antt", commit), files("crates/*/specs/**/*.antt", commit)))
        else:
            places = list({"1": point1, "2": point2, "3": point3, "4": point4, "5": point5, "6": point6, "7": point7}[str(number)](fns, tys, sources))
        kinds = collections.Counter()
        for kind, path, line, text in places:
            print(f"{number}  {kind}  {path}:{line}  {text}")
            kinds[kind, "_vectors/" in path] += 1
        for kind in dict.fromkeys(k for k, _ in kinds):
            print(f"{number}  of this kind: {kinds[kind, False]} in the engine, {kinds[kind, True]} in the programs: {kind}")
        all_places = {(path, line) for _, path, line, _ in places}
        programs = sum("_vectors/" in path for path, _ in all_places)
        print(f"point {number}: {len(all_places) - programs} in the engine, {programs} in the programs\n")


main()
