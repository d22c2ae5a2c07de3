#!/usr/bin/env python3
"""Brings this repository's own names to one spelling: words in snake case, types and modules in camel case.

usage: python3 tools/rename.py [--dry] [FOLDER]     at the top of a checkout that has just been through port.py

A name is one that a file of specs/ or proofs/ declares. A hump becomes `_`, and so does a dash, but where it joins two
names of definitions. Names of functions, exported names, strings and what the prover makes keep their spelling. Where two
names would fall together, the lemma's gets `_lem`, and the script says so. It is run once.
"""
import collections
import os
import re
import sys

WORD = re.compile(r"[A-Za-z0-9_'⁺ℕℤ₀-₉≤≡<-]+")
DECLARED = re.compile(r"^(\s*)((?:(?:pub|abbrev|unfoldable) )*)(record |data )?([^\s(){}\[\]:=,;.?]+)((?:\s*[({][^(){}]*(?:\([^()]*\)[^(){}]*)*[)}])*)\s*:(?=\s|$)")
NO_NAME = {"let", "in", "where", "use", "open", "unfolding", "elim", "_"}
GENERATED = re.compile(r"\b(tie|goal)\.")
# Lemmas that had the spelling of a definition's new name already.
FIRST = {"first_below": "first_below_lem", "other_width": "other_width_lem", "pair_line": "pair_line_lem"}

# Where the rule would leave a dash or a part that is no word.
APART = {
    "getD-listBelow": "get_or-list_below",
    "getD-padded": "get_or-padded",
    "outbound-stretch": "outbound_stretch",
    "inbound-stretch": "inbound_stretch",
    "outbound-short": "outbound_short",
    "inbound-short": "inbound_short",
    "outbound-clear": "outbound_clear",
    "inbound-clear": "inbound_clear",
    "width-rows": "width_rows",
    "short-distances": "short_distances",
    "short-outbound": "short_outbound",
    "short-inbound": "short_inbound",
}
ALIAS = re.compile(r"^\s*(?:ghost |pub )*use \S+ as (\w+)", re.M)

# Names that port.py turned in the crates; here they are turned on the pages.
PORTED = """
    above-zero add-at after-line after-test all-in all-left all-three all-true allBelow as-distances as-long
    as-wide at-b at-c at-gap at-least at-most at-one at-rest at-zero atMost below-one below-top best-none
    both-rest both-ways by-field by-form by-kind by-lines by-most by-size by-tests bytes-left cast-is choiceOf
    codeOf count-small count-spec countOf either-way end-is end-seen endAt endOf ends-on enum-told fill-more
    fill-spec filled-more filled-none first-below first-found first-good first-passes first-read first-spec
    first-step fits-by from-first goes-on in-a-row in-field in-frame in-halves in-left in-order in-place
    in-right in-row in-table inA inArray indexOf inside-is is-whole is-zero kindOf late-by least-more
    left-over lent-spec lentOf line-read line-wrote link-near list-ext lists-back listsOf lowering-small
    main-spec max-none minus-is minus-minus mul-left mul-low mul-right new-spec no-digit no-nan no-place
    no-second none-beside none-left none-seen not-first not-negative not-yet nothing-left nothing-written
    number-past of-others of-two ofBits-is one-holds one-line one-more only-nan open-at or-left or-r or-right
    orElse orZero other-scaled other-width pair-is pair-line pair-spec pairOf passed-over passes-at past-by
    past-end placeOf placed-on placedAt planOf positionOf product-small raised-is rank-is rankOf read-a
    read-spec reading-small readingOf rest-of roomCheck row-of rowOf run-spec saidOf same-length same-test
    second-spec secondOf seen-alike settledOf shift-agree shift-small shiftOf short-back sign-text
    signed-above signed-below signed-is signedOf so-far start-none sub-low sum-more sum-step textOf the-links
    to-last too-long too-short too-small wayOf whole-is wholeOf wide-is width-of with-lead withB write-spec
    writes-again writes-as writes-byte zero-is
""".split()


def files(ending, *folders):
    for folder in folders:
        for at, folders_in, names in os.walk(folder):
            folders_in[:] = sorted(f for f in folders_in if f not in ("out", "must-fail"))
            for name in sorted(names):
                if name.endswith(ending):
                    yield os.path.join(at, name)


def read(path):
    with open(path, encoding="utf-8") as f:
        return f.read()


def declared(text):
    """The names that a file declares: (name, kind, whether a definition), but those of the prover's goals."""
    found = []
    for line in text.splitlines():
        if line.lstrip().startswith("--"):
            continue
        m = DECLARED.match(line)
        if m and m[4] not in NO_NAME and not GENERATED.search(line[m.end():]):
            kind = "type" if m[3] or m[4][0].isupper() else "word"
            found.append((m[4], kind, "abbrev" in m[2] or "unfoldable" in m[2] or bool(m[3])))
    return found


def snake(name):
    name = re.sub(r"(?<=[a-z0-9])(?=[A-Z])", "_", name)
    # A capital that is a name of the method, such as B or A, stays one.
    return re.sub(r"_([A-Z])(?=[a-z])", lambda m: "_" + m[1].lower(), name)


def spelled(name, definitions):
    if name in APART:
        return APART[name]
    if name.endswith("-spec"):
        return name.replace("-", "_")
    parts = name.split("-")
    if any(p == "" for p in parts):
        return name
    out = parts[0] if parts[0][:1].isupper() else snake(parts[0])
    for before, part in zip(parts, parts[1:]):
        joins = before in definitions and part in definitions and len(before) > 2 and len(part) > 2
        out += ("-" if joins else "_") + (part if part[:1].isupper() else snake(part))
    return out


def gather():
    names, definitions = {}, set()
    per_file = {}
    for path in files(".antt", "crates"):
        per_file[path] = declared(read(path))
        for name, kind, defines in per_file[path]:
            if name in FIRST:
                continue
            names.setdefault(name, kind)
            if defines:
                definitions.add(name)
    renamed = {}
    for name, kind in names.items():
        if kind == "word" or "-" in name:
            new = spelled(name, definitions)
            if new != name:
                renamed[name] = new
    taken = collections.defaultdict(set)
    for name in names:
        taken[renamed.get(name, name)].add(name)
    for new, olds in sorted(taken.items()):
        if len(olds) > 1:
            lemmas = [o for o in olds if o in renamed and o not in definitions and "-" in o]
            for o in sorted(lemmas)[: len(olds) - 1]:
                renamed[o] = new + "_lem"
                print(f"falls together: {sorted(olds)} -> {o} is {new}_lem")
            if len(lemmas) < len(olds) - 1:
                print(f"FALLS TOGETHER, by hand: {new}: {sorted(olds)}")
    first = {a: b for a, b in FIRST.items() if b.removesuffix("_lem") in renamed.values()}
    return renamed | first, names


def turned(text, renamed, fields, comment, aliases=()):
    """The text with its names turned; in a comment, only those with a hump and those between backquotes. A page has None."""
    out, last, quoted = [], 0, 0
    for m in WORD.finditer(text):
        quoted += text.count("`", last, m.start())
        out.append(text[last:m.start()])
        last = m.end()
        word = m[0]
        new = renamed.get(word)
        after_dot = m.start() > 0 and text[m.start() - 1] == "."
        module = re.search(r"(\w+)\.$", text[:m.start()]) if after_dot else None
        if module and module[1] in aliases:
            after_dot = False
        in_path = comment is None and (text[m.end():m.end() + 4] == ".txt" or text[m.start() - 1] == "/")
        if new is None or (after_dot and word not in fields) or in_path:
            new = word
        elif comment and not re.search(r"[a-z0-9][A-Z]", word) and quoted % 2 == 0:
            new = word
        out.append(new)
    out.append(text[last:])
    return "".join(out)


def code_line(line, mark, renamed, fields, aliases):
    at = line.find(mark)
    if at < 0:
        return turned(line, renamed, fields, False, aliases)
    return turned(line[:at], renamed, fields, False, aliases) + turned(line[at:], renamed, fields, True)


def main():
    words = sys.argv[1:]
    dry = "--dry" in words
    words = [w for w in words if w != "--dry"]
    os.chdir(words[0] if words else ".")
    renamed, names = gather()
    fields = set()
    for path in files(".antt", "crates"):
        for line in read(path).splitlines():
            m = DECLARED.match(line)
            if m and m[1] and not GENERATED.search(line):
                fields.add(m[4])
    changed = 0
    for ending, mark in ((".antt", "--"), (".rt", "//")):
        for path in files(ending, "crates"):
            old = read(path)
            map_here = renamed if ending == ".antt" else {a: b for a, b in renamed.items() if a not in FIRST}
            aliases = set(ALIAS.findall(old)) - {"tie", "goal"}
            new = "".join(code_line(line, mark, map_here, fields, aliases) for line in old.splitlines(True))
            before = set(WORD.findall(old))
            for a, b in sorted(renamed.items()):
                if a in before and b in before and a != b:
                    print(f"look: {path}: {a} becomes {b}, a word that stands there already")
            if new != old:
                changed += 1
                if not dry:
                    with open(path, "w", encoding="utf-8") as f:
                        f.write(new)
    pages = {n: snake(n.replace("-", "_")) for n in PORTED} | {n: b for n, b in renamed.items() if n not in FIRST}
    pages |= {b.removesuffix("_lem").replace("_", "-"): b for b in FIRST.values()}
    for path in list(files(".md", "docs", "sheets", "bench", "compare", "client")) + ["README.md"]:
        if not os.path.exists(path) or path.endswith(("PORT.md", "DESIGN-PASS.md")):
            continue
        old = read(path)
        new = re.sub(r"`[^`\n]+`", lambda m: turned(m[0], pages, set(pages), None).replace("′", "'"), old)
        if new != old and not dry:
            with open(path, "w", encoding="utf-8") as f:
                f.write(new)
    print(f"{len(renamed)} names in {changed} files")
    if dry:
        for a, b in sorted(renamed.items()):
            print(a, b)


main()
