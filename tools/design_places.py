#!/usr/bin/env python3
"""Counts the places in crates/*/src that docs/DESIGN-PASS.md speaks of.

    python3 tools/design_places.py [COMMIT] [-v]

Without a commit it reads the files as they lie here; with -v it prints each place. The patterns are what the counts
mean: docs/DESIGN-PASS.md names each by the word in front of its line.
"""
import re
import subprocess
import sys
from collections import defaultdict
from itertools import combinations

ARGS = [a for a in sys.argv[1:] if a != "-v"]
VERBOSE = "-v" in sys.argv
COMMIT = ARGS[0] if ARGS else None


def git(*args):
    return subprocess.run(["git", *args], capture_output=True, text=True, check=True).stdout


def files(part):
    names = git("ls-tree", "-r", "--name-only", COMMIT) if COMMIT else git("ls-files", "-co", "--exclude-standard")
    for name in sorted(set(names.splitlines())):
        if re.match(part, name):
            try:
                yield name, git("show", f"{COMMIT}:{name}") if COMMIT else open(name).read()
            except FileNotFoundError:
                pass


def bare(text):
    """The code without comments and ghost lines."""
    text = re.sub(r"//[^\n]*", "", text)
    return re.sub(r"(?m)^\s*ghost .*$", "", text)


class Function:
    def __init__(self, file, name, head, clauses, body, line):
        self.file, self.name, self.head, self.clauses, self.body, self.line = file, name, head, clauses, body, line

    def place(self):
        return f"{self.file}:{self.line} {self.name}"

    def parameters(self):
        head = self.head.replace("->", "  ")
        depth, at = 0, 0
        for at, c in enumerate(head):
            depth += {"<": 1, ">": -1}.get(c, 0)
            if c == "(" and depth == 0:
                break
        depth, part, parts = 0, "", []
        for c in head[at + 1:]:
            depth += 1 if c in "(<[" else -1 if c in ")>]" else 0
            if depth < 0:
                break
            if c == "," and depth == 0:
                parts.append(part)
                part = ""
            else:
                part += c
        parts.append(part)
        return [re.sub(r"\s+", " ", p.strip()) for p in parts if ":" in p]


def functions(file, text):
    code = bare(text)
    for m in re.finditer(r"\bfn (\w+)", code):
        end = re.compile(r"\{\s*\n|;\s*\n").search(code, m.end())
        # the body opens with a brace that ends its line; clauses keep their braces inside theirs
        at, head_end = m.end(), None
        for line in re.finditer(r"[^\n]*\n", code[m.end():]):
            text_line = line.group().strip()
            start = m.end() + line.start()
            if re.match(r"(requires|ensures)\b", text_line) or (head_end is not None and not re.match(r"^[{}]", text_line)):
                head_end = head_end if head_end is not None else start
                continue
            if text_line.endswith(";") and head_end is None and "{" not in text_line:
                at = None
                break
            if text_line.endswith("{") or text_line in ("{", "{}"):
                at = start + line.group().rindex("{")
                head_end = head_end if head_end is not None else at
                break
        if at is None or head_end is None:
            continue
        depth, i = 0, at
        while i < len(code):
            depth += {"{": 1, "}": -1}.get(code[i], 0)
            i += 1
            if depth == 0:
                break
        clauses = [re.sub(r"\s+", " ", c).strip() for c in re.findall(r"(?:requires|ensures)\s*\w*\s*\{(.*)\}\s*\n", code[head_end:at])]
        yield Function(file, m.group(1), code[m.start():head_end], clauses, code[at:i], code[:m.start()].count("\n") + 1)


SOURCES = list(files(r"crates/[^/]+/src/.*\.rt$"))
FUNCTIONS = [f for name, text in SOURCES for f in functions(name, text)]


def found(word, meaning, places):
    print(f"  {word:<14} {len(places):>3}  {meaning}")
    if VERBOSE:
        for p in places:
            print(f"        {p}")
    return len(places)


def in_bodies(pattern, every=True):
    out = []
    for f in FUNCTIONS:
        hits = re.findall(pattern, f.body)
        out += [f.place()] * (len(hits) if every else bool(hits))
    return out


def in_heads(pattern):
    return [f.place() for f in FUNCTIONS if re.search(pattern, f.head)]


def point_1():
    print("1 Option and Result")
    n = found("error-option", "a function that answers an Option for an error", in_heads(r"-> Option<(Refusal|BadField|BadLine)>"))
    handed = r"(?:else \{\s*return Err\()|(?:(?:None|Some\(\w+\)|Err\(\w+\)) => (?:return )?Err\()|(?:if let (?:Some|Err)\(\w+\) = [^{]*\{\s*return Err\()"
    n += found("handed-on", "an error or a missing value handed on by a match, an if or a let-else", in_bodies(handed))
    n += found("flag", "a bool parameter or field beside the value that it governs", in_heads(r"\w+: bool") + [f"{file} {m}" for file, text in SOURCES for m in re.findall(r"(?m)^    (?:pub )?(\w+): bool,", bare(text))])
    n += found("number-of", "an enum turned into numbers or letters by a match", [f.place() for f in FUNCTIONS if len(re.findall(r"\w+::\w+(?:\(_\))? => (?:\d+|b?'.'),", f.body)) > 1])
    n += found("by-number", "a match whose cases are numbers", [f.place() for f in FUNCTIONS if len(re.findall(r"(?m)^\s*\(?\d[\w.=_ ]*(?:, [^=]*)?(?: if [^=]*)?\)? => ", f.body)) > 0])
    n += found("unreachable", "an error that cannot come, taken apart by hand", in_bodies(r"unreachable\("))
    n += found("nothing-as-0", "a number returned where nothing is meant", [f.place() for f in FUNCTIONS if re.fullmatch(r"\{\s*0\s*\}", f.body.strip())])
    return n


def shape(f):
    names, out = {}, []
    words = {"if", "else", "match", "for", "in", "let", "mut", "return", "fn", "self", "Some", "None", "Ok", "Err", "as", "true", "false"}
    for token in re.findall(r"\w+|[^\w\s]", f.head[f.head.index("("):] + f.body):
        if token in words or not re.match(r"\w", token):
            out.append(token)
        elif token[0].isdigit():
            out.append("0")
        else:
            out.append(str(names.setdefault(token, len(names))))
    return " ".join(out)


def point_2():
    print("2 Twins: functions, and structs, that are the same but for names, types and numbers")
    groups = defaultdict(list)
    for f in FUNCTIONS:
        if len(re.findall(r"\w+", f.body)) > 2 and f.name != "main":
            groups[shape(f)].append(f.place())
    twins = [g for g in groups.values() if len(g) > 1]
    n = found("functions", f"functions in {len(twins)} groups", [" = ".join(g) for g in twins for _ in g])
    types = defaultdict(list)
    for file, text in SOURCES:
        for name, inner in re.findall(r"pub struct (\w+)(?:<[^>]*>)?\s*(\{[^}]*(?:\{[^}]*\}[^}]*)*\}|\([^)]*\);)", re.sub(r"//[^\n]*", "", text)):
            types[re.sub(r"most_\w+|\d+", "N", re.sub(r"\s+", " ", inner))].append(f"{file} {name}")
    same = [g for g in types.values() if len(g) > 1]
    return n + found("structs", f"structs in {len(same)} groups", [" = ".join(g) for g in same for _ in g])


def point_3():
    print("3 Loops")
    n = found("while", "a while loop", in_bodies(r"\bwhile\b"))
    n += found("index", "a for over a range of numbers", in_bodies(r"\bfor (?!_)\w+ in [^{]*\.\.[^{]*\{"))
    n += found("method", "a loop that fills, finds or counts, for which the library has a method", [f.place() for f in FUNCTIONS if re.search(r"for [^{;]* in [^{;]*\{\s*(?:\*\w+ = [^;]*;|if [^{]*\{\s*(?:return [^;]*;|\w+ \+= 1;)\s*\})\s*\}", f.body)])
    n += found("recursion", "a function, not a method, that calls itself by its name", [f.place() for f in FUNCTIONS if "&self" not in f.head and re.search(rf"(?<![\w.:]){f.name}\(", f.body)])
    return n


def point_4():
    print("4 Equality, order, copying, conversion, printing")
    n = found("max", "the larger of two by an if", in_bodies(r"if (\w+) < (\w+) \{\s*\2\s*\} else \{\s*\1\s*\}"))
    n += found("equality", "an enum compared by a match with true and false", [f.place() for f in FUNCTIONS if re.search(r"\w+::\w+ => true,", f.body) and re.search(r"=> false,", f.body)])
    n += found("order", "numbers of one type compared by their inside", in_bodies(r"\w+\.0 (?:<|<=|>|>=) [\w.\[\]\- ]*\.0\b"))
    n += found("copied", "fields copied one by one", in_bodies(r"\b(\w+): \w+\.\1,(?=\s*\w+: \w+\.)"))
    closed = [f"{file}" for file, text in SOURCES for _ in re.findall(r"standing: Standing::Closed,\s*job: JobNumber\(0\)", bare(text))]
    n += found("default", "the closed record, or a value of zeros, written out", closed + in_bodies(r"(?:serial: 0,\s*litres: 0,|Dial \{ number: 0 \})"))
    n += found("bad-field", "a bad field or a bad line written out", in_bodies(r"Bad(?:Field|Line) \{"))
    n += found("range", "a range tested by two comparisons", in_bodies(r"(?:\w+ < 1 \|\| (?:\w+ > |[\d_]+ < )|1 <= \w+ && \w+ <= |3 <= \w+ && \w+ <= |b'0' \|\| |\.0 == 0 \|\| )"))
    n += found("digits", "digits printed by hand", in_bodies(r"b'0' \+"))
    return n


def point_5():
    print("5 Facts and parameters")
    facts = defaultdict(set)
    for f in FUNCTIONS:
        for c in f.clauses:
            if "≡" in c or "≤" in c or len(c.split()) > 2:
                facts[c].add(f.place())
    often = {c: p for c, p in facts.items() if len(p) > 2}
    n = found("facts", f"clauses that stand word for word in three functions or more ({len(often)} facts)", [f"{c}: {p}" for c, ps in sorted(often.items()) for p in sorted(ps)])
    groups = defaultdict(set)
    for f in FUNCTIONS:
        parameters = [re.sub(r"'\w+ ", "", p) for p in f.parameters()]
        for size in (2, 3, 4):
            for group in combinations(parameters, size):
                groups[group].add(f.place())
    often = {g: p for g, p in groups.items() if len(p) > 2}
    largest = {g: p for g, p in often.items() if not any(set(g) < set(h) and len(q) == len(p) for h, q in often.items())}
    return n + found("parameters", "groups of parameters that stand together in three functions or more", [f"{', '.join(g)}: {len(p)} functions" for g, p in sorted(largest.items())])


def point_6():
    print("6 Buffers")
    n = found("buffer", "a lent buffer with its count beside it as a parameter", in_heads(r"count: &mut Count, out: &mut \[u8\]|out: &mut \[u8\],[^)]*count|count: &mut Count,\s*out: &mut \[u8\]"))
    n += found("used", "a slice or an array with an index or a count of its own beside it", [f"{file} {name}" for file, text in SOURCES for name, inner in re.findall(r"struct (\w+)[^{;]*\{([^}]*)\}", bare(text)) if re.search(r"&\S* (?:mut )?\[|: \[", inner) and re.search("usize|Count", inner)] + in_heads(r"\[u64; 64\]\) -> usize") + in_heads(r"numbers: &mut \[u64\]\) -> Result<usize"))
    n += found("parallel", "five lent slices or more as parameters of one function, or as fields of one struct", [f.place() for f in FUNCTIONS if len(re.findall(r"&mut \[", f.head)) > 4] + [f"{file} {name}" for file, text in SOURCES for name, inner in re.findall(r"struct (\w+)[^{;]*\{([^}]*)\}", bare(text)) if len(re.findall(r"mut \[|: \[", inner)) > 4])
    return n


def point_7():
    print("7 Steps")
    n = found("steps", "functions that differ in the reader that they hand a line to", [f.place() for f in FUNCTIONS if "next_line(reader" in f.body])
    n += found("switch", "a match on a call, a stage or a drawn number that chooses what is run", [f.place() for f in FUNCTIONS if re.search(r"match (?:call|which|\(self\.stage)", f.body)])
    n += found("tables", "tables of functions, function pointers, dyn", [f"{file}" for file, text in SOURCES if re.search(r"\bdyn \b|: fn\(", bare(text))])
    return n


def point_8():
    print("8 Proofs")
    answers = [(n, t) for n, t in files(r"crates/[^/]+/proofs/.*/Answers\.antt$")]
    lemmas = [(n, t) for n, t in files(r"crates/[^/]+/proofs/[^/]+\.antt$") if not n.endswith("Lib.antt")]
    print(f"  answers        {sum(len(re.findall(r'(?m)^pub [^ ]+ : goal', t)) for _, t in answers):>4}  in {len(answers)} files")
    print(f"  lemmas         {sum(len(re.findall(r'(?m)^(?:pub )?[^ ]+ : ', t)) for _, t in lemmas):>4}  in {len(lemmas)} files of proofs/")
    print(f"  lines          {sum(t.count(chr(10)) for _, t in files(r'crates/[^/]+/proofs/.*[.]antt$')):>4}  in all of proofs/")


def main():
    print(f"{len(SOURCES)} files, {len(FUNCTIONS)} functions with a body" + (f", at {COMMIT}" if COMMIT else ""))
    total = [p() for p in (point_1, point_2, point_3, point_4, point_5, point_6, point_7)]
    point_8()
    print("places of points 1 to 7: " + ", ".join(str(t) for t in total))


main()
