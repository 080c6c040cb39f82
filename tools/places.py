#!/usr/bin/env python3
"""places.py [--list POINT] [FOLDER]: counts in crates/*/src the places that docs/DESIGN-PASS.md speaks of, point by point.

1 enums of two cases of the shape of Option or Result, flags beside a value, answers where 0 stands for none, Result with a number for its error
2 functions of one crate or two whose text is the same but for names, numbers and types (40 tokens or more)
3 loops that count by hand: `while` and `loop`
4 conversions by hand: functions that are one `match` or a row of `if`s from cases to numbers or back; comparisons by hand
5 parameters that travel together: groups of two or more that stand in three functions or more
6 buffers with a length beside them: a struct with `bytes` and `len`, a buffer and a place handed on
7 a `match` on which function to run
"""
import re
import sys
from collections import defaultdict
from pathlib import Path

CODE = re.compile(r"//[^\n]*|ghost use [^;]*;|^use [^;]*;|^pub use [^;]*;|^\s*(requires|ensures)\b.*$", re.M)
WORD = re.compile(r"[A-Za-z_][A-Za-z_0-9]*|\d[\dA-Za-z_]*|b?'(?:[^'\\]|\\.)'|\"[^\"]*\"|\S")
KEPT = set("fn let mut if else while loop for in match return pub struct enum const as true false usize u8 u16 u64 bool".split())


def functions(text):
    """(name, head, body) of each function of a file, without comments and contracts."""
    code = CODE.sub("", text)
    for m in re.finditer(r"\bfn (\w+)", code):
        at = code.find("{", m.end())
        semi = code.find(";", m.end())
        if at < 0 or (0 <= semi < at and "[" not in code[m.end():semi]):
            continue
        depth, end = 0, at
        while end < len(code):
            depth += {"{": 1, "}": -1}.get(code[end], 0)
            end += 1
            if depth == 0:
                break
        yield m[1], code[m.start():at], code[at:end]


def shape(body):
    return tuple("#" if w not in KEPT and re.match(r"[\w'\"]", w) else w for w in WORD.findall(body))


def found(root):
    out = defaultdict(list)
    shapes, travels = defaultdict(list), defaultdict(set)
    for p in sorted(root.glob("crates/*/src/**/*.rt")):
        text = p.read_text()
        name = str(p.relative_to(root / "crates"))
        code = CODE.sub("", text)
        for m in re.finditer(r"\benum (\w+)[^{]*\{([^}]*(?:\{[^}]*\}[^}]*)*)\n\}", code):
            cases = re.findall(r"^    (\w+)(?: ?[({,]|$)(.*)", m[2], re.M)
            if len(cases) == 2 and re.search(r"[({]", m[2]):
                out[1].append(f"{name} enum {m[1]}")
            elif len(cases) == 3 and any(re.match(r"No[A-Z]", c) for c, _ in cases):
                out[1].append(f"{name} enum {m[1]}: {' '.join(c for c, _ in cases)}")
        for m in re.finditer(r"\bstruct (\w+)[^{;]*\{(.*?)\n\}", code, re.S):
            fields = re.findall(r"(\w+): ([^,\n]+)", m[2])
            kinds = [f for f, t in fields if t == "bool"]
            if len(fields) > 1 and any(f in ("given", "some", "found", "any") for f in kinds):
                out[1].append(f"{name} struct {m[1]}: flag {', '.join(kinds)}")
            if any(f in ("len", "first") for f, t in fields) and any(t.startswith("[") for f, t in fields):
                out[6].append(f"{name} struct {m[1]}")
        for m in re.finditer(r"\b(?:number|fault|of_number) [!=]= 0\b", code):
            out[1].append(f"{name} test {m[0]}")
        for m in re.finditer(r"-> Result<[^<>]*(?:<[^<>]*>)?[^<>]*, u\d+>", code):
            out[1].append(f"{name} {m[0]}")
        for m in re.finditer(r"^\s*(while\b[^{]*|loop )\{", code, re.M):
            out[3].append(f"{name} {m[1].strip()}")
        for fn, head, body in functions(text):
            tokens = shape(body)
            if len(tokens) >= 40:
                shapes[tokens].append(f"{name} {fn}")
            inner = body.strip()[1:-1].strip()
            arms = re.findall(r"=> ([\w:]+(?:\([\w:()]*\))?),", inner)
            if re.match(r"match \w+ \{", inner) and len(arms) > 1 and inner.count("match ") == 1 and not re.search(r"=> \w+\([^)]*[a-z]\w*[,)]", inner):
                out[4].append(f"{name} {fn}")
            elif re.fullmatch(r"(if \w+ == [\w:]+ \{\s*return [\w:]+;\s*\}\s*)+[\w:]+", inner):
                out[4].append(f"{name} {fn}")
            elif re.match(r"(same|equal|less|smaller|is_same)\w*$", fn):
                out[4].append(f"{name} {fn}")
            params = [x.strip() for x in re.findall(r"(\w+: [^,()]+)", head[head.find("("):head.rfind(")")])]
            for i, a in enumerate(params):
                for b in params[i + 1:]:
                    travels[(a, b)].add(f"{name} {fn}")
            if "out: &mut [u8]" in params and "at: usize" in params:
                out[6].append(f"{name} {fn}: buffer and place")
            called = re.findall(r"=> \{?\s*([a-z]\w*(?:::\w+)*)\(", inner)
            if re.match(r"match ", inner) and len(set(called)) > 2:
                out[7].append(f"{name} {fn}")
    out[2] = [" ~ ".join(v) for v in shapes.values() if len(v) > 1]
    for pair, where in travels.items():
        if len(where) > 2 and pair[0].split(": ")[1] not in ("u8", "bool"):
            out[5].append(f"{pair[0]}, {pair[1]}: {len(where)} functions")
    return out


def main():
    args = sys.argv[1:]
    listed = int(args[args.index("--list") + 1]) if "--list" in args else 0
    rest = [a for a in args if not a.startswith("--") and a != str(listed)]
    out = found(Path(rest[0] if rest else "."))
    for point in range(1, 8):
        print(f"point {point}: {len(out[point])}")
        if point == listed:
            print("\n".join(f"  {x}" for x in out[point]))


main()
