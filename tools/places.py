#!/usr/bin/env python3
"""Counts the places in src/ that docs/DESIGN-PASS.md speaks of, point by point.

`tools/places.py` prints a line for each point and kind of place: how many there are, and how many of them have a line
`// Kept: ..` above them. `tools/places.py -v` lists the places. `tools/places.py N` does so for point N alone.
A place is found by the look of a line, or by the shape of a function: it is a place to look at, no verdict.
"""
import collections
import glob
import os
import re
import sys

TOP = os.path.dirname(os.path.dirname(os.path.abspath(__file__)))


class Function:
    def __init__(self, file, line, name, head, body, kept):
        self.file, self.line, self.name, self.head, self.body, self.kept = file, line, name, head, body, kept

    def where(self):
        return f"{self.file}:{self.line} {self.name}"


def is_kept(lines, n):
    """Is there a line that says why, in the comment above line n or above the function that it begins?"""
    while n > 0 and re.match(r"\s*(//|#\[)", lines[n - 1]):
        n -= 1
        if "// Kept:" in lines[n]:
            return True
    return False


def sources():
    for path in sorted(glob.glob(f"{TOP}/crates/*/src/*.rt")):
        yield os.path.relpath(path, f"{TOP}/crates").replace("/src/", "/"), open(path).read().split("\n")


def functions():
    for file, lines in sources():
        n = 0
        while n < len(lines):
            found = re.match(r"(\s*)(pub )?(extern \"C\" )?fn (\w+)", lines[n])
            if not found:
                n += 1
                continue
            first, indent = n, found.group(1)
            while not re.match(rf"{indent}\{{|.*\{{$", lines[n]) and n < len(lines) - 1:
                n += 1
            start = n
            while not re.match(rf"{indent}\}}", lines[n]):
                n += 1
            head = "\n".join(lines[first:start])
            if not lines[start].strip() == "{":
                head += lines[start].rstrip("{")
            yield Function(file, first + 1, found.group(4), head, "\n".join(lines[start + 1:n]), is_kept(lines, first))
            n += 1


def by_line(pattern, but=None):
    out = []
    for file, lines in sources():
        for n, line in enumerate(lines):
            if line.lstrip().startswith("//") and not pattern.startswith("//"):
                continue
            if re.search(pattern, line) and not (but and re.search(but, line)):
                out.append((f"{file}:{n + 1} {line.strip()[:90]}", is_kept(lines, n)))
    return out


def inner(f):
    """The function without what its contract says."""
    return "\n".join(l for l in f.head.split("\n") if not re.match(r"\s*(requires|ensures)", l))


def shape(f):
    words = re.findall(r"b?'(?:\\.|[^'])'|b?\"[^\"]*\"|0x[0-9A-Fa-f_]+|\d[\d_]*|[A-Za-z_]\w*|\S", inner(f) + f.body)
    keep = {"if", "else", "while", "loop", "return", "match", "let", "mut", "for", "in", "break", "true", "false"}
    return tuple(w if w in keep or not re.match(r"\w|b?['\"]", w) else ("N" if re.match(r"\d|0x|b?['\"]", w) else "I") for w in words)


def point1():
    yield "own enums", by_line(r"^\s*(pub )?enum \w+")
    yield "constants that number kinds", by_line(r"const [A-Z_]+: (u8|u64) =")
    yield "kinds, classes and refusals as numbers, a flag beside a value", by_line(
        r"\b(number|kind|class|deep|ok|shape|only): (u8|u32|u64|usize|bool)\b")
    none = []
    for f in functions():
        if re.search(r"-> (usize|u8|u32|u64)\b", inner(f)) and re.search(r"\n\s*(return )?(0|16|NO_INT|x\.len\(\)|3|105);?(?=\n|$)|=> 0,", "\n" + f.body) \
                and re.search(r"return", f.body + f.head):
            none.append((f.where(), f.kept))
    yield "functions that return a number with one value set aside", none
    yield "structs whose fields are set aside", by_line(r"\b(len|nodes|at|j|deep): 0,")


def point2():
    groups = collections.defaultdict(list)
    for f in functions():
        s = shape(f)
        if len(s) > 24:
            groups[s].append(f)
    out = []
    for fs in groups.values():
        if len(fs) > 1:
            out += [(f"{f.where()}  (as {fs[0].name if f is not fs[0] else fs[1].name})", f.kept) for f in fs]
    yield "functions of one shape", out
    yield "functions named by a number or a size", [
        (f.where(), f.kept) for f in functions()
        if re.search(r"(^|_)(one|two|three|four|small|medium|middle|large|largest|fitting|short|long)(_|$)|[0-9]$", f.name)]


def point3():
    yield "while and loop", by_line(r"^\s*('\w+: )?(while|loop)\b")


def point4():
    yield "casts by as", by_line(r"\bas (u8|u16|u32|u64|usize)\b")
    yield "numbers taken apart or put together by hand", by_line(r"(%|/|\*) (256|65536|0x100|0x10000|0x1000000|16777216|4294967296)\b")
    names = r"^(copy|same|fill|flag|mark|when|wide|choose|left|due|is_in|four|size|letter|digit|bits)$"
    yield "equality, copying, choice and conversion by hand", [(f.where(), f.kept) for f in functions() if re.search(names, f.name)]
    yield "several comparisons for one test of a class", by_line(r"^\s*if \w+ (<|>|<=|>=) (b'.'|0x[0-9A-F]+) \{")


def clauses(head):
    for found in re.finditer(r"requires (?:\w+ )?\{(.*)\}", head):
        depth, part = 0, ""
        for c in found.group(1) + " × ":
            depth += (c in "({") - (c in ")}")
            if c == "×" and depth == 0:
                yield part.strip().removeprefix("(").removesuffix(")").strip()
                part = ""
            else:
                part += c


def point5():
    facts, params = collections.defaultdict(list), collections.defaultdict(list)
    for f in functions():
        crate = f.file.split("/")[0]
        for c in set(clauses(f.head)):
            if c:
                facts[crate, re.sub(r"\.(old|now)\b", "", c)].append(f)
        found = re.search(r"\((.*?)\)\s*(->|\{|requires|ensures|$)", inner(f), re.S)
        names = [re.sub(r"\s+", " ", p.strip()) for p in found.group(1).split(",") if ":" in p] if found else []
        for i in range(len(names)):
            for j in range(i + 1, len(names)):
                for k in range(j + 1, len(names)):
                    params[crate, names[i], names[j], names[k]].append(f)
    yield "facts that three or more contracts of a crate ask for", [
        (f"{c}: {t} ({len(fs)}: {', '.join(f.name for f in fs[:6])}..)", all(f.kept for f in fs)) for (c, t), fs in sorted(facts.items()) if len(fs) > 2]
    most, seen = [], set()
    for (c, *names), fs in sorted(params.items(), key=lambda x: -len(x[1])):
        if len(fs) > 2 and (c, tuple(f.where() for f in fs)) not in seen:
            seen.add((c, tuple(f.where() for f in fs)))
            most.append((f"{c}: {', '.join(names)} ({len(fs)})", all(f.kept for f in fs)))
    yield "three parameters that travel together in three or more functions of a crate", most


def point6():
    yield "arrays of a written length", by_line(r"\[(0?u8|0?u16|0?u64|usize|0u8|0u16|0u64); ?\w+\]")
    yield "a room and an offset into it, as two parameters", [
        (f.where(), f.kept) for f in functions()
        if re.search(r"(out|err|errs|room|ends|rows): &mut \[\w+\],\s*(o|e|at|d|k): usize", inner(f))]


def point7():
    yield "switches on a tag or kind", by_line(r"^\s*match (tag|kind|k|entry|only|n|s|op)\b")
    yield "tables of functions", by_line(r"\bfn\(")


def point8():
    answers = sum(len(re.findall(r"(?m)^(?:pub )?[\w-]+ : goal\.", open(p).read())) for p in glob.glob(f"{TOP}/crates/*/proofs/**/Answers.antt", recursive=True))
    lines = sum(open(p).read().count("\n") for p in glob.glob(f"{TOP}/crates/*/proofs/**/Answers.antt", recursive=True))
    print(f"8  answers: {answers}, in {lines} lines of Answers.antt")
    return []


def main():
    verbose = len(sys.argv) > 1
    only = sys.argv[1] if verbose and sys.argv[1] != "-v" else None
    for n, point in enumerate([point1, point2, point3, point4, point5, point6, point7, point8], 1):
        if only and only != str(n):
            continue
        for kind, places in point():
            print(f"{n}  {kind}: {len(places)}, of them kept with a reason {sum(k for _, k in places)}")
            if verbose:
                for text, kept in places:
                    print(f"     {'kept ' if kept else ''}{text}")


main()
