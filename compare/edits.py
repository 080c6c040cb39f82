"""edits.py: every wrong answer fits its crate, and the gate's are refused for a fact.

An edit, in crates/*/must-fail/ or in tried/*/, names files of its crate and texts that stand there exactly once, so that none rots.
What `rt` said of the gate's edits, where `test` or `tried/run` has left it, must be of each that the prover refused it, and not only
because the proof names what the edit took away: that refuses nothing. The gate tries at most MOST edits, for each is a whole check of its
crate; with --all as many as there are.
"""
import re
import sys
from pathlib import Path

ROOT = Path(__file__).resolve().parent.parent
MOST = 107
SAID = ROOT / "target" / "gate.out"
TOLD = re.compile(r"^rt: must-fail (\S+)/(\S+\.edit): (.*)$", re.M)
REFUSED = re.compile(r"refused, as it must be(: |$)")


def misfit(edit, crate):
    """Why an edit does not fit its crate, or nothing: its texts are replaced one after the other, as `rt` does."""
    texts, name, old, pairs = {}, None, None, 0
    for line in edit.read_text().splitlines():
        if line.startswith("file: "):
            name = line[6:]
            path = ROOT / "crates" / crate / name
            if not path.is_file():
                return f"there is no {name} in {crate}"
            texts.setdefault(name, path.read_text())
        elif line.startswith("old: "):
            old = line[5:]
        elif line.startswith("new:"):
            found = texts[name].count(old) if name and old else 0
            if found != 1:
                return f"its text stands {found} times in {name}: {old}"
            texts[name] = texts[name].replace(old, line[4:].removeprefix(" "))
            pairs += 1
    return None if pairs else "it changes nothing"


def said():
    """What `rt` said of each edit that it tried, by crate and name; nothing where it has left no word."""
    text = SAID.read_text(errors="replace") if SAID.is_file() else ""
    return {(crate, name): told for crate, name, told in TOLD.findall(text)}


def unfounded(edit, told):
    """Why what `rt` said of an edit refuses nothing, or nothing. What it said before the edit was written is not of this edit."""
    if not SAID.is_file() or edit.stat().st_mtime > SAID.stat().st_mtime:
        return None
    if told is None:
        return "it was not tried"
    return None if REFUSED.match(told) else told[:300]


def main():
    faults, passed, words = [], 0, said()
    gate = sorted(ROOT.glob("crates/*/must-fail/*.edit"))
    for edit in gate + sorted(ROOT.glob("tried/*/*.edit")):
        crate = edit.relative_to(ROOT).parts[1]
        fault = misfit(edit, crate)
        if not fault and edit in gate:
            fault = unfounded(edit, words.get((crate, edit.name)))
        if fault:
            faults.append(f"{edit.relative_to(ROOT)}: {fault}")
        else:
            passed += 1
    if len(gate) > MOST and "--all" not in sys.argv:
        faults.append(f"the gate has {len(gate)} edits, over {MOST}: the ones that matter less go to tried/")
    for fault in faults:
        print(f"edits: {fault}")
    print(f"edits: {len(gate)} in the gate, {passed + len(faults) - len(gate)} in tried/")
    print(f"edits: {passed} passed, {len(faults)} failed")
    return 1 if faults else 0


if __name__ == "__main__":
    sys.exit(main())
