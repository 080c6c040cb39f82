#!/usr/bin/env python3
"""Brings the repository's own definitions and lemmas to snake case: lyingAt becomes lying_at.

usage: tools/spelling.py [--check]

Run after port.py at the top of the repository. It goes through specs/, proofs/ and src/ of each crate, through the edits of must-fail/ and tried/, and
through README.md and docs/. A name is turned where it stands as a whole word; what stands in quotes keeps its spelling.
--check writes nothing and tells which new names already stand in a file that has the old one.
"""

import glob
import re
import sys

SIGNATURE = re.compile(
    r"^\s*(?:(?:unfoldable|abbrev|irreducible|pub) )*(?:(?:record|data|ruleset) )?([^\s:(){}]+)(?: .*)? : "
)
# Names that no signature of their own declares: several in one line, or in a `let`.
ALSO = """goAt isCoarse isOdd kindI kindJ laidChoice laidChoices laidComponent laidModel laidPin laidPins laidRows laidSelector
laidWaveform laidWaveforms lengthsOf onAt ownToo shelfOf""".split()
# Lemmas that would have the new name of the definition that they speak of: each gets _lem, in these files.
LEMMAS = {
    "crates/component_records/proofs/Keys.antt": "part_by",
    "crates/component_steps/proofs/Laws.antt": "no_cells",
    "crates/handed_out/proofs/Records.antt": "no_cells",
    "crates/line_faults/proofs/Laws.antt": "by_place",
    "crates/line_rules/proofs/Says.antt": "said_at",
    "crates/note_words/proofs/Laws.antt": "one_more",
    "crates/noted_events/proofs/EventLaws.antt": "more_rows",
    "crates/notes/proofs/Settles.antt": "one_more more_rows",
    "crates/remarks/proofs/Texts.antt": "text_at",
    "crates/remarks/proofs/Worth.antt": "text_at",
    "crates/renumbered/proofs/Outcomes.antt": "text_at",
    "crates/rules/proofs/Keys.antt": "key_in",
    "crates/surplus_word/proofs/Laws.antt": "rest_at",
}
CAMEL = re.compile(r"[a-z0-9][A-Z]")
QUOTED = re.compile(r'"(?:\\.|[^"\\\n])*"')
WORD = re.compile(r"[^\s(){}\[\].,;:«»`\"]+")


def snake(name):
    return re.sub(r"(?<=[a-z0-9])([A-Z])", lambda m: "_" + m[1].lower(), name)


def proof_files():
    return sorted(
        glob.glob("crates/*/specs/**/*.antt", recursive=True)
        + glob.glob("crates/*/proofs/**/*.antt", recursive=True)
    )


def source_files():
    return sorted(glob.glob("crates/*/src/**/*.rt", recursive=True))


def edit_files():
    return sorted(glob.glob("crates/*/must-fail/*.edit") + glob.glob("tried/*/*.edit"))


def pages():
    return sorted(["README.md"] + glob.glob("docs/*.md"))


def signatures():
    for path in proof_files():
        for line in open(path, encoding="utf-8"):
            found = SIGNATURE.match(line)
            if found:
                yield found[1]


def respelled(text, known):
    """The names of edits and pages that stand in snake case in the crates alone."""

    def word(found):
        name = found[0]
        if name in known or not (CAMEL.search(name) or "-" in name) or name[0].isupper():
            return name
        new = snake(name)
        for new in (new, new.replace("-", "_")):
            if new in known:
                return new
        return name

    return WORD.sub(word, text)


def declared():
    names = set(ALSO)
    names |= {it for it in signatures() if CAMEL.search(it) and not it[0].isupper()}
    return {name: snake(name) for name in names}


def turned(text, names, quotes):
    def word(found):
        return names.get(found[0], found[0])

    if not quotes:
        return WORD.sub(word, text)
    parts, at = [], 0
    for quoted in QUOTED.finditer(text):
        parts.append(WORD.sub(word, text[at : quoted.start()]))
        parts.append(quoted[0])
        at = quoted.end()
    parts.append(WORD.sub(word, text[at:]))
    return "".join(parts)


def main():
    check = "--check" in sys.argv[1:]
    names = declared()
    for path in proof_files() + source_files() + edit_files() + pages():
        text = open(path, encoding="utf-8", newline="").read()
        if check:
            words = set(WORD.findall(text))
            for old, new in sorted(names.items()):
                if old in words and new in words:
                    print(f"{path}: {old} and {new}")
            continue
        words = set(WORD.findall(text))
        for lemma in LEMMAS.get(path, "").split():
            if not any(old in words and new == lemma for old, new in names.items()):
                continue
            text = re.sub(rf"(?<![\w'.-]){lemma}(?![\w'.-])", lemma + "_lem", text)
        new = turned(text, names, not path.endswith(".md"))
        if new != open(path, encoding="utf-8", newline="").read():
            with open(path, "w", encoding="utf-8", newline="") as f:
                f.write(new)
    if not check:
        known = set(signatures())
        for path in edit_files() + pages():
            text = open(path, encoding="utf-8", newline="").read()
            new = respelled(text, known)
            if new != text:
                with open(path, "w", encoding="utf-8", newline="") as f:
                    f.write(new)
        print(f"{len(names)} names")


if __name__ == "__main__":
    main()
