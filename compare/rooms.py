"""rooms.py: a crate lists what it uses and nothing else, and a file of definitions or proofs takes in what it uses and nothing else.

Fails at a listed crate that no file of the crate names and that declares no type which the crate's values hold (the prover asks a crate
to list the home of every type that its values hold, named or not); and at a name in a `use` line that the rest of its file does not have.
"""
import re
import sys
from functools import lru_cache
from pathlib import Path

ROOT = Path(__file__).resolve().parent.parent
DECLARED = re.compile(r"^pub (?:struct|enum) (\w+)[^{(;]*(\{.*?^\}|\([^)]*\);)", re.M | re.S)
SIGNATURE = re.compile(r'^ *pub(?:\(crate\))? (?:extern "C" )?fn (\w+)(.*?)(?= requires | ensures |\{$)', re.M | re.S)
NAMED = re.compile(r"\b[A-Z]\w+")
TAKEN = re.compile(r"^use \S+?\.\{([^}]*)\}$", re.M)
QUOTED = re.compile(r'"(?:[^"\\]|\\.)*"')
EDGE = r"[\s(){}\[\].,;]"


def files_of(folder, pattern):
    """The files below a folder, without what the prover keeps there."""
    return sorted(path for path in folder.rglob(pattern) if "out" not in path.relative_to(ROOT).parts)


@lru_cache(None)
def listed():
    """What crates.txt lists, a crate's dependencies by its name; behind a name may stand what it is built as."""
    rows = (line.split("#")[0] for line in (ROOT / "crates.txt").read_text().splitlines())
    pairs = (row.split(":") for row in rows if row.strip())
    return {name.split()[0]: dependencies.split() for name, dependencies in pairs}


@lru_cache(None)
def code(crate):
    """A crate's Rattle without comments."""
    return "\n".join(re.sub(r"//[^\n]*", "", path.read_text()) for path in sorted((ROOT / "crates" / crate).glob("src/*.rt")))


def named_in(crate):
    """The crates whose names a crate's files have: in Rattle as `name::`, in antt as `Rattle.name`. A module of its own is none."""
    folder = ROOT / "crates" / crate
    modules = {path.stem for path in folder.glob("src/*.rt")}
    found = set(re.findall(r"(?<![\w:])([a-z]\w*)::", code(crate))) - modules
    for path in [*files_of(folder, "*.rt"), *files_of(folder, "*.antt")]:
        found |= set(re.findall(r"(?<![\w.])Rattle\.(\w+)", path.read_text()))
    return found - {crate, "std"}


@lru_cache(None)
def declared(crate):
    """The public types of a crate with what each is made of, and the public functions with what each takes and gives; as names."""
    types = {name: set(NAMED.findall(body)) for name, body in DECLARED.findall(code(crate))}
    functions = {name: set(NAMED.findall(takes)) for name, takes in SIGNATURE.findall(code(crate))}
    return types, functions


@lru_cache(None)
def home(crate, name):
    """Where the type of this name in a crate's code is declared, if it is a type."""
    if name in declared(crate)[0]:
        return crate
    used = re.search(rf"\buse ([a-z]\w*)::(?:\w+::)*(?:{name};|\{{[^}}]*\b{name}\b[^}}]*\}};)", code(crate))
    return used.group(1) if used and used.group(1) in listed() else None


def held_by(crate):
    """The crates that declare a type which a crate's values hold: the types it names, those its calls give, and what these are made of."""
    todo = {(crate, name) for name in NAMED.findall(code(crate))}
    for other, name in re.findall(r"\b([a-z]\w*)::(?:\w+::)*([a-z]\w*)\b", code(crate)):
        if other in listed():
            todo |= {(other, kind) for kind in declared(other)[1].get(name, ())}
    seen = set()
    while todo:
        where, name = todo.pop()
        found = home(where, name)
        if found and (found, name) not in seen:
            seen.add((found, name))
            todo |= {(found, part) for part in declared(found)[0].get(name, ())}
    return {found for found, _ in seen} - {crate}


def body(text):
    """What a file says: no `use` lines, no comments, no quoted texts."""
    said = "\n".join(line for line in text.splitlines() if not line.startswith("use ") and not line.lstrip().startswith("--"))
    return f" {QUOTED.sub(' ', said)} "


def stands(name, said):
    """Whether a name stands in what a file says; an operator `◌+◌` as such, or by what is between its places."""
    if name == "[]":
        return name in said
    parts = [name] if "◌" not in name or re.search(f"(?<={EDGE}){re.escape(name)}(?={EDGE})", said) else filter(None, name.split("◌"))
    return all(re.search(f"(?<={EDGE}){re.escape(part)}(?={EDGE})", said) for part in parts)


def idle_names(path):
    """The names that a file takes in and does not use."""
    text = path.read_text()
    said = body(text)
    names = [name.split()[-1] for group in TAKEN.findall(text) for name in group.split(",") if name.strip()]
    return [name for name in names if not stands(name, said)]


def main():
    crates, files = listed(), files_of(ROOT / "crates", "*.antt")
    faults = []
    for crate, dependencies in crates.items():
        used = named_in(crate) | held_by(crate)
        faults += [f"crates.txt lists {name} for {crate}, which neither names it nor holds a type of it" for name in dependencies if name not in used]
    for path in files:
        faults += [f"{path.relative_to(ROOT)} takes in {name} and does not use it" for name in idle_names(path)]
    for fault in faults:
        print(f"rooms: {fault}: take it out")
    print(f"rooms: {len(crates)} crates, {sum(map(len, crates.values()))} dependencies, {len(files)} files of definitions and proofs")
    print(f"rooms: {len(crates) + len(files) - len(faults)} passed, {len(faults)} failed")
    return 1 if faults else 0


if __name__ == "__main__":
    sys.exit(main())
