#!/usr/bin/env python3
"""Respells this repository's own definitions and lemmas: words in snake case, as 'spanOf' to 'span_of' and 'none-passed' to 'none_passed'.

usage: tools/respell.py [--check]    at the top of the repository, once, behind the kit's port.py

What specs/ and proofs/ declare turns, wherever it is named: in specs/, in proofs/, in the clauses and ghost items of src/, in must-fail edits and in the
pages. Types and facts keep their capital. Functions of src/, exported names, strings, inputs and outputs are not touched. A name that a file takes from
a library of the kit stays in that file. Where a new name is in a file already, a line that begins 'meets:' says so, and OTHERS gives another name.
"""
import collections
import re
import sys
from pathlib import Path

ROOT = Path(__file__).resolve().parent.parent
WORD = re.compile(r'[^\s(){}.;,@"«»`]+')
DECLARED = re.compile(r"(?m)^ *(?:(?:pub|abbrev|unfoldable|pattern|axiom) )*([^\s(){}.;,@\"«»]+)(?: \{[^{}\n]*\})* : ?(.*)$")
RULES = re.compile(r"(?m)^ *(?:pub )?ruleset (\S+) =")
SEVERAL = re.compile(r"(?m)^ +((?:[^\s(){}.;,@\"«»]+ )+[^\s(){}.;,@\"«»]+) : ")
USE = re.compile(r"(?m)^\s*(?:pub )?(?:ghost )?use ([^\s{;]+)\.\{([^}]*)\}")

# names that would meet another
OTHERS = {}
# lemmas that port.py gave the name that their definition gets now, by file
LEMMAS = {
    "coherence/proofs/NameChecks": ["part_end"],
    "defaults/proofs/SameEnds": ["first_past"],
    "demands/proofs/Ends": ["first_past"],
    "demands/proofs/Limits": ["first_past"],
    "forecast/proofs/Forecasts": ["first_past"],
    "forecast/proofs/RunFigures": ["first_past"],
    "forecast/proofs/Stops": ["first_past"],
    "model/proofs/Simulation": ["units_of"],
    "sessions/proofs/SoundCoherent": ["target_fits"],
    "starts/proofs/Joined": ["level_in"],
    "strands/proofs/Delivered": ["count_by"],
}


def own_crates():
    return {p.name for p in (ROOT / "crates").iterdir() if (p / "src").is_dir()}


def spelled(name):
    if name in OTHERS:
        return OTHERS[name]
    if not name[0].islower():
        return name
    snake = re.sub(r"(?<=[a-z0-9'])([A-Z])", lambda m: "_" + m[1].lower(), name)
    snake = re.sub(r"([A-Z])", lambda m: m[1].lower(), snake)
    return snake.replace("-", "_")


def formal():
    for crate in sorted((ROOT / "crates").iterdir()):
        for folder in ("specs", "proofs"):
            yield from (p for p in sorted((crate / folder).rglob("*.antt")) if p.name not in ("Answers.antt", "Invariants.antt") or p.parent.name == folder)


def table(texts):
    """Each declared name that is spelled otherwise, with its new spelling."""
    names = set()
    for path, text in texts.items():
        for m in DECLARED.finditer(text):
            if path.name == "Proof.antt" and re.match(r"(tie|goal)\.", m[2]):
                continue
            names.add(m[1])
        names.update(m[1] for m in RULES.finditer(text))
        # constructors that are declared together, as 'own slot : A'
        names.update(n for m in SEVERAL.finditer(text) for n in m[1].split() if re.search("[a-z][A-Z]", n))
    news = {n: spelled(n) for n in names}
    # a lemma that would have its definition's name gets _lem
    taken = {n for n in names if "-" not in n and news[n] == n} | {news[n] for n in names if "-" not in n}
    for n in names:
        if "-" in n and news[n] in taken:
            news[n] += "_lem"
    return {n: new for n, new in news.items() if new != n}


def lent(text, own):
    """The names that a file takes from modules that are not this repository's."""
    found = set()
    for m in USE.finditer(text):
        steps = m[1].split(".")
        if steps[0] == "Rattle" and len(steps) > 1 and steps[1] in own:
            continue
        for item in m[2].split(","):
            found.update(item.split())
    return found


def main(argv):
    own = own_crates()
    texts = {p: p.read_text(encoding="utf-8") for p in formal()}
    for place, lemmas in LEMMAS.items():
        path = ROOT / "crates" / (place + ".antt")
        for lemma in lemmas:
            definition = re.sub("_(.)", lambda m: m[1].upper(), lemma)
            if definition not in texts[path]:
                continue
            texts[path] = WORD.sub(lambda m: lemma + "_lem" if m[0] == lemma else m[0], texts[path])
    names = table(texts)
    back = collections.defaultdict(set)
    for old, new in names.items():
        back[new].add(old)
    for new, olds in sorted(back.items()):
        if len(olds) > 1:
            print(f"meets: {new}: {sorted(olds)}")
    every = dict(texts)
    for crate in sorted((ROOT / "crates").iterdir()):
        for path in sorted((crate / "src").rglob("*.rt")) + sorted((crate / "must-fail").glob("*.edit")):
            every[path] = path.read_text(encoding="utf-8")
    pages = [p for p in [ROOT / "README.md", ROOT / "docs/believed", *(ROOT / "docs").rglob("*.md"), *(ROOT / "tests").glob("*.md")] if p.name != "PORT.md" and p.exists()]
    for path in pages:
        every[path] = path.read_text(encoding="utf-8")
    said = 0
    for path, text in every.items():
        keeps = lent(text, own)
        code = path.suffix == ".antt"
        page = path in pages
        words = set(WORD.findall(text))

        def turn(m):
            word = m[0]
            if word in keeps:
                return word
            if not code and ("-" in word or "_" not in names.get(word, "_")) and not page and path.suffix != ".edit":
                return word
            return names.get(word, word)

        if page:
            new = re.sub(r"`[^`\n]+`|\"[^\"\n]+\"", lambda s: WORD.sub(turn, s[0]), text)
        else:
            new = WORD.sub(turn, text)
        if not page:
            turned = {w for w in words if w in names and w not in keeps and (code or "-" not in w)}
            for w in sorted(turned):
                if names[w] in words:
                    print(f"meets: {path.relative_to(ROOT)}: {w} -> {names[w]}")
                    said += 1
        if (new != text or path in texts) and "--check" not in argv:
            path.write_text(new, encoding="utf-8")
    print(f"respell: {len(names)} names, {said} meet another")


if __name__ == "__main__":
    main(sys.argv[1:])
