#!/usr/bin/env python3
"""Brings the repository's own definitions and lemmas to one spelling: words in snake case, types and facts in camel case.

Run once at the top, after the scripts that turn an older Rattle's spelling. A name is its own here if a file of specs/ or proofs/
defines it; what std or the check names keeps its spelling, and so do the functions of src/, strings and comments. Names that would
fall together are listed, and nothing is written.
"""
import pathlib, re, sys

ROOT = pathlib.Path.cwd()
# Names that would fall together with another: a lemma of a function's name, a word that a function of src/ has.
OTHERWISE = {
    "equal-exactly": "equal_exactly_lem",
    "moves-by-rule": "moves_by_rule_lem",
    "reached-sound": "reached_sound_lem",
    "shares-conserved": "shares_conserved_lem",
    "sound-kept": "sound_kept_lem",
    "time-priority": "time_priority_lem",
    "Bad-line": "IsBadLine",
    "Bad-file": "IsBadFile",
    "by-verb": "instruction_by_verb",
    "verb-of": "instruction_verb",
    "quote-refusal": "quotation_refusal",
    "of-line": "of_one_line",
    "to-rest": "going_to_rest",
}
# A dash joins two names here: bit of bit_or, bit of bit_xor, on of sheet.
JOINED = {"bit-or", "bit-xor", "on-sheet"}
# A method of src/ has the name of the definition that it follows.
MIRRORS = {"goes-out", "never-locks", "never-rests", "trades-past", "route-line"}
WORD = r"[^\s(){}\[\];.,\"`:]+"
HEAD = re.compile(r"^\s*(?:(?:abbrev|unfoldable|pub|data|record)\s+)*((?:" + WORD + r"\s+)+?)(?:[({].*[)}]\s*)?:(?:\s|$)")
TOKEN = re.compile(r"--[^\n]*|//[^\n]*|\"(?:[^\"\\]|\\.)*\"|" + WORD)


def spelled(name):
    if name in OTHERWISE:
        return OTHERWISE[name]
    parts = name.split("-")
    if name[0].isupper():
        return "".join(p[:1].upper() + p[1:] for p in parts)
    return "_".join(parts)


def is_ours(name):
    return re.fullmatch(r"[A-Za-z][A-Za-z0-9_']*(-[A-Za-z0-9_']+)+", name) is not None


def definitions():
    found = set()
    for p in sorted(ROOT.glob("crates/*/*/**/*.antt")):
        if p.relative_to(ROOT).parts[2] not in ("specs", "proofs"):
            continue
        for line in p.read_text().splitlines():
            if line.startswith("use "):
                found.update(w for w in re.findall(r"\bas (" + WORD + ")", line) if is_ours(w))
            if re.match(r"\s*(use|let|mod|pub mod|module)\b", line) or line.lstrip().startswith("--"):
                continue
            m = HEAD.match(line)
            if m and not re.search(r":\s*(goal|given|need)\.", line):
                found.update(w for w in m.group(1).split() if is_ours(w))
    return found


def texts():
    for p in sorted(ROOT.glob("crates/*/**/*")):
        if p.suffix in (".antt", ".rt") and "out" not in p.relative_to(ROOT).parts:
            yield p


def tokens():
    seen = set()
    for p in texts():
        for m in TOKEN.finditer(p.read_text()):
            if not m.group().startswith(("--", "//", '"')):
                seen.add(m.group())
    return seen


def main():
    ours = definitions()
    table = {n: spelled(n) for n in ours - JOINED}
    seen, back, bad = tokens(), {}, []
    for old, new in sorted(table.items()):
        if new in seen or new in back:
            bad.append(f"{old} would fall together with {new}" + (f" (from {back[new]})" if new in back else ""))
        back[new] = old
    left = [b for b in bad if b.split()[0] not in MIRRORS]
    if left:
        print("\n".join(left))
        sys.exit(1)
    n = 0
    for p in texts():
        old = p.read_text()
        new = TOKEN.sub(lambda m: m.group() if m.group().startswith(("--", "//", '"')) else table.get(m.group(), m.group()), old)
        if new != old:
            p.write_text(new)
            n += 1
    print(f"{len(table)} names, {n} files")


main()
