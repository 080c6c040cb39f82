"""Every public function of a library promises one result and one content of lent memory, in a form that crates/promise_forms proves
to leave no choice; or docs/CONTRACTS.md lists it as an exception. An exception that is none fails too. And docs/CONTRACTS.md has a
line for each function, which says what it asks of its caller where it asks something. Before that the check is tried on promises that are made up.
With --list, the functions and their forms are printed."""
import re
import sys
from pathlib import Path

ROOT = Path(__file__).resolve().parent.parent
FUNCTION = re.compile(r'^ *pub (?:extern "C" )?fn (\w+)', re.M)
PROMISE = re.compile(r"ensures(?: \w+)? \{")
BODY = re.compile(r" *\{$", re.M)
LISTED = re.compile(r"`(\w+)::(\w+|\{[^}]*\})`")
PROVED = re.compile(r"^pub \w+ : .*→ One \((\w+)", re.M)
DESCRIBED = re.compile(r"^- `(?:\w+::)*(\w+)`: (.+)$")
NAME = re.compile(r"\.?[\w«»′'-]+(?:\.[\w«»′'-]+)*")
LEFT = {"new", "exit"}
OPERATORS = {"≡", "≤", "<", "+", "-", "*", "/", "%", "∷", "++", "[]", "=", ";", ","}

# Promises that are made up, and what each fixes: x, y and z are lent slices. Clauses of one promise stand side by side.
MADE_UP = (
    ("result ≡ g x.now", {"result"}),
    ("result ≡ record { at = 2; end = at + 3 }", {"result"}),
    ("result.now ≡ g x.old", {"result"}),
    ("result.now ≡ drop 2 result.now", set()),
    ("x.new ≡ h", {"x"}),
    ("(result ≡ g) × (x.new ≡ h)", {"result", "x"}),
    ("(result ≡ g) × (at ≤ result) × (x.new ≡ h)", {"result", "x"}),
    ("((result ≡ g) × (at ≤ result)) × (x.new ≡ h)", {"result", "x"}),
    ("WordAt x.now at result", {"result"}),
    ("Put x.old x.new at (byte ∷ []) result", {"result", "x"}),
    ("Writes x.old x.new (byte ∷ [])", {"x"}),
    ("sheet x.new ≡ g (sheet x.old)", {"x"}),
    ("Read x.now result y.new", {"result", "y"}),
    ("Lists x.now result (list_tables y.new z.new)", {"result", "y", "z"}),
    ("word_tables x.new y.new ≡ h result", set()),
    ("word_tables x.new y.new ≡ h", {"x", "y"}),
    ("list_tables x.new y.new ≡ h", {"x", "y"}),
    ("other_tables x.new y.new ≡ h", set()),
    ("result ≡ result", set()),
    ("result ≡ g ⊎ Unit", set()),
    ("result ≡ g → Unit", set()),
    ("(result ≡ g) ⊎ Unit", set()),
    ("Unit → (result ≡ g)", set()),
    ("(result ≡ g → ⊥)", set()),
    ("(result ≡ g) × (x.new ≡ h) ⊎ Unit", set()),
    ("(result ≡ g ⊎ Unit) × (x.new ≡ h)", {"x"}),
    ("result ≡ g × Unit", set()),
    ("(y : ℕ) × (result ≡ y)", set()),
    ("Either (result ≡ g) Unit", set()),
    ("result ≡ g ≡ h", set()),
    ("WordAt x.now ⊎ result", set()),
    ("Exports x.now ⊎ result x.new", set()),
    ("result ≡ record { at = result; end = 3 }", set()),
    ("result ≡ record { at = x.new; end = 3 }", set()),
    ("result ≡ record { src = x.exit; at = 3 }", set()),
    ("result ≡ g (result, 3)", set()),
    ("x.new ≡ sets x.new 3", set()),
    ("x.new ≡ h result", set()),
    ("x.new ≡ y.new", set()),
    ("Read x.now result (half y.new)", set()),
    ("Put x.old x.new at x.new result", set()),
    ("Writes x.old x.new x.new", set()),
    ("sheet x.new ≡ g (sheet x.new)", set()),
    ("(result ≡ g", set()),
    ("result ≡ record { at = 3 )", set()),
    # a part of the result, or of what is left, is not all of it; and what is lent is not what is left
    ("result.end ≡ g", set()),
    ("result ≡ g result.end", set()),
    ("x.new.rows ≡ h", set()),
    ("result ≡ g x.new.rows", set()),
    ("result ≡ g (x).new", set()),
    ("x.now ≡ h", set()),
    ("x.old ≡ h", set()),
    ("result ≡ λ y. g", set()),
    # several clauses fix what each of them fixes
    ("result ≡ g", "x.new ≡ h", {"result", "x"}),
    ("result ≡ g", "at ≤ result", "x.new ≡ h", {"result", "x"}),
    ("at ≤ result", "result ≤ length x.now", set()),
    ("result ≡ g ⊎ Unit", "x.new ≡ h", {"x"}),
    ("result ≡ g result", "x.new ≡ h result", set()),
    ("result ≡ record { at = 3 )", "x.new ≡ h", {"x"}),
)


def section(heading):
    """The text of a section of docs/CONTRACTS.md."""
    text = (ROOT / "docs" / "CONTRACTS.md").read_text()
    found = re.search(rf"^## {heading}\n(.*?)(?=^## |\Z)", text, re.M | re.S)
    if not found:
        sys.exit(f"promises: docs/CONTRACTS.md has no section '{heading}'")
    return found.group(1)


def exceptions(heading):
    """The functions that a section of docs/CONTRACTS.md lists."""
    found = set()
    for crate, names in LISTED.findall(section(heading)):
        for name in names.strip("{}").split(","):
            found.add(f"{crate}::{name.strip()}")
    return found


def described(heading):
    """The functions that a section of docs/CONTRACTS.md has a line for, in order, and whether the line says what is asked."""
    found, crate = {}, None
    for line in section(heading).splitlines():
        if line.startswith("### "):
            crate = line[4:].strip()
        elif match := DESCRIBED.match(line):
            found.setdefault(f"{crate}::{match.group(1)}", []).append(" asks: " in match.group(2))
    return found


def proved():
    """The promises on a result alone that crates/promise_forms proves to leave one, by their names."""
    return set(PROVED.findall((ROOT / "crates" / "promise_forms" / "proofs" / "Forms.antt").read_text()))


def parsed(text):
    """A term as a list: a name or an operator, or a list of terms in brackets or braces; nothing where these do not match."""
    stack, closing = [[]], []
    for token in re.findall(r"[(){};,]|[^\s(){};,]+", text):
        if token in "({":
            stack.append([])
            closing.append(")" if token == "(" else "}")
        elif token in ")}":
            if not closing or closing.pop() != token:
                return []
            term = stack.pop()
            stack[-1].append(term)
        else:
            stack[-1].append(token)
    return [] if closing else stack[0]


def path(token):
    """The names of a token, from the first one on to its fields: none of brackets."""
    return token.split(".") if isinstance(token, str) else []


def exits(term):
    """The lent names whose content at exit a term has, in whole or in part."""
    found = set()
    for at, part in enumerate(term):
        if isinstance(part, list):
            found |= exits(part)
        elif LEFT & set(path(part)[1:]):
            found.add(path(part)[0] or str(term[:at]))
    return found


def known(term):
    """Whether a term has names and the operators of definitions alone: no choice, no arrow, no bound name."""
    if isinstance(term, list):
        return all(map(known, term))
    return term in OPERATORS or term != "λ" and NAME.fullmatch(term) is not None


def mentions(term, name):
    """Whether a name or a field of it stands in a term."""
    return name in path(term)[:1] or isinstance(term, list) and any(mentions(part, name) for part in term)


def plain(terms):
    """What a promise fixes things to: neither the result nor what is left may stand in it."""
    return not mentions(terms, "result") and not exits(terms)


def left(term):
    """The lent names that a term is the content at exit of, and nothing else: one, or several side by side."""
    if isinstance(term, str):
        return {path(term)[0]} if path(term)[1:] == ["new"] and path(term)[0] else set()
    if len(term) == 1:
        return left(term[0])
    if term and term[0] in ("word_tables", "list_tables") and all(left(part) for part in term[1:]):
        return exits(term)
    return set()


def equation(terms):
    """What `x ≡ definition` fixes: the result, or what is left."""
    if terms.count("≡") != 1:
        return set()
    at = terms.index("≡")
    before, behind = terms[:at], terms[at + 1 :]
    if not plain(behind):
        return set()
    if before in (["result"], ["result.now"]):
        return {"result"}
    if before[:1] == ["sheet"]:
        return left(before[1:])
    return left(before)


def by_cases(terms):
    """What the promises that have a proof of their own fix: each says what is read or put, then the result and what is left."""
    head, parts = terms[0], terms[1:]
    if head == "Writes" and len(parts) == 3:
        before, after, text = parts
        if left(after) and plain([before, text]):
            return left(after)
    if head == "Put" and len(parts) == 5:
        before, after, at, text, place = parts
        if place == "result" and left(after) and plain([before, at, text]):
            return {"result"} | left(after)
    if head in ("Read", "ReadInWords", "Lists", "Exports") and "result" in parts:
        at = parts.index("result")
        if plain(parts[:at]) and all(left(part) for part in parts[at + 1 :]):
            return {"result"} | exits(parts)
    if isinstance(head, str) and head in proved() and parts and parts[-1] == "result" and plain(parts[:-1]):
        return {"result"}
    return set()


def clauses(terms):
    """The clauses that all hold: `×` stands between bracketed ones, and a clause is of known terms. A bound name before `×` leaves a choice."""
    if "×" in terms:
        if any(mentions(terms, binder) for binder in (":", "λ")):
            return []
        if not all(part == "×" if at % 2 else isinstance(part, list) for at, part in enumerate(terms)):
            return []
        return [clause for part in terms[::2] for clause in clauses(part)]
    if len(terms) == 1 and isinstance(terms[0], list):
        return clauses(terms[0])
    return [terms] if terms and known(terms) else []


def promises(signature):
    """What stands between the braces of each `ensures`: up to the one that closes it, or to the next `ensures` where none does."""
    starts = [match.end() for match in PROMISE.finditer(signature)]
    for start, stop in zip(starts, [*starts[1:], len(signature)]):
        depth, at = 1, start
        while at < stop and depth:
            depth += (signature[at] == "{") - (signature[at] == "}")
            at += 1
        yield signature[start : at - 1] if depth == 0 else ""


def forms(signature):
    """The forms of a function's promises: what each fixes."""
    fixed = set()
    for text in promises(signature):
        for clause in clauses(parsed(text)):
            fixed |= equation(clause) | by_cases(clause)
    return fixed


def made_up():
    """The made-up promises that this check answers wrongly."""
    for *texts, fixes in MADE_UP:
        found = forms("\n".join(f"ensures {{ {text} }}" if len(texts) == 1 else f"ensures clause_{at} {{ {text} }}" for at, text in enumerate(texts)))
        if found != fixes:
            yield f"`{'`, `'.join(texts)}` is said to fix {', '.join(sorted(found)) or 'nothing'}"


def functions():
    """Each public function of a library: its name and its signature with its promises."""
    for line in (ROOT / "crates.txt").read_text().splitlines():
        crate = line.split(":")[0].split(" ")[0]
        if line.startswith("#") or not (ROOT / "crates" / crate / "src" / "lib.rt").is_file():
            continue
        for path in sorted((ROOT / "crates" / crate / "src").glob("*.rt")):
            text = path.read_text()
            for match in FUNCTION.finditer(text):
                yield f"{crate}::{match.group(1)}", BODY.split(text[match.start() :])[0]


def wanted(signature):
    """What a promise has to fix: the result, where there is one, and each slice lent to be written."""
    head = signature.split("requires")[0].split("ensures")[0]
    lent = set(re.findall(r"(\w+): &(?:'\w+ )?mut ", head)) | ({"self"} if "&mut self" in head else set())
    return lent | ({"result"} if "->" in head else set())


def missing(name, asks, lines):
    """What a function's line in docs/CONTRACTS.md lacks; its line is taken from those left."""
    if not lines.get(name):
        return "has no line"
    said = lines[name].pop(0)
    return "" if said == asks else "asks something that its line does not say" if asks else "asks nothing, but its line says so"


def main():
    free, lines = exceptions("Promises that leave a choice"), described("Every public function")
    faults = list(made_up())
    passed = len(MADE_UP) - len(faults)
    seen = set()
    for name, signature in functions():
        seen.add(name)
        left = wanted(signature) - forms(signature)
        asks = "requires" in signature
        if "--list" in sys.argv:
            print(name, "fixes", ", ".join(sorted(forms(signature))) or "nothing", "and asks" if asks else "")
        wrong = [missing(name, asks, lines)]
        if bool(left) != (name in free):
            wrong.append(f"leaves {', '.join(sorted(left))} open" if left else "leaves no choice, but is listed")
        faults += [f"{name}: {fault}" for fault in wrong if fault]
        passed += not any(wrong)
    faults += [f"{name}: is listed, but there is no such function" for name in sorted(free - seen)]
    faults += [f"{name}: has a line, but there is no such function" for name in lines if lines[name]]
    for fault in faults:
        print(f"promises: {fault}")
    print(f"{passed} passed, {len(faults)} failed")
    sys.exit(bool(faults))


main()
