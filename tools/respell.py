#!/usr/bin/env python3
"""Brings the repository's own words to snake case, once, after /opt/rattle/port/port.py: definitions, lemmas, fields and labels that are declared in
crates/*/specs and crates/*/proofs and are written as `isDigit` become `is_digit`. Types and modules keep their capital.

usage: tools/respell.py [--list]        at the top; --list writes nothing, and prints each old name with its new one

It turns whole words in .antt files, but for texts in quotes, and in .rt files inside `ghost use` items and clauses alone, so that Rattle functions,
fields and exported names keep theirs (then `rt fmt` in each crate). Where the new spelling is a lemma's or a local name's already, that one gets its hyphens (as `is-open`) first,
but for labels that Rattle makes, which stand behind a dot.
"""
import collections
import glob
import re
import sys

TEXT = r'"(?:\\.|[^"\\\n])*"'
NAME = r"[^\s(){}.;,@\"«»]+"
DECLARED = re.compile(rf"^[ \t]*(?:\| )?(?:pub |abbrev |unfoldable |private )*((?:[a-z]{NAME[0:0]}[\w'-]*))((?: [a-z][\w'-]*)*) ?(?:\{{[^}}\n]*\}} )*:(?=\s)", re.M)
CLAUSE = re.compile(r"(?:requires|ensures|ghost)\*?[ \t]*(?:\w+[ \t]*:?[ \t]*)?\{|ghost use\b")
# words of Rattle's own that happen to be declared in a proof by hand
MADE = re.compile(r"(^|-)(Inv|Need)(-|$)")


def snake(name):
    return re.sub(r"(?<=[a-z0-9])[A-Z]", lambda m: "_" + m[0].lower(), name)


def antt_files():
    return sorted(glob.glob("crates/*/specs/**/*.antt", recursive=True) + glob.glob("crates/*/proofs/**/*.antt", recursive=True))


def declared():
    names = collections.Counter()
    for path in antt_files():
        text = re.sub(r"--[^\n]*", "", open(path, encoding="utf-8").read())
        for m in DECLARED.finditer(text):
            for word in (m[1] + m[2]).split():
                names[word] += 1
        # what clauses bind on the left
        for m in re.finditer(r"(?m)^[ \t]*[a-z][\w'-]* ((?:[^=:\n]|\([^=\n]*\))*) =(?=\s)", text):
            for word in re.findall(r"(?<![\w.])[a-z]\w*", m[1]):
                names[word] += 1
        # parameters of modules and of signatures, and what a `let` or a lambda binds
        for m in re.finditer(r"[({]((?:[a-z][\w']* )+):", text):
            for word in m[1].split():
                names[word] += 1
        for m in re.finditer(r" as ([a-z][\w']*)(?=[,}\s])", text):
            names[m[1]] += 1
        for m in re.finditer(r"\blet ([a-z][\w'-]*) [:=]|λ ((?:[a-z][\w']* ?)+)\.", text):
            for word in (m[1] or m[2]).split():
                names[word] += 1
    return names


def table():
    names, turned, met = declared(), {}, []
    for name in sorted(names):
        if re.search("[A-Z]", name) and name[0].islower() and not MADE.search(name):
            turned[name] = snake(name)
            if turned[name] in names:
                met.append(turned[name])
    news = collections.Counter(turned.values())
    assert max(news.values(), default=1) == 1, [n for n in news if news[n] > 1]
    return turned, {name: name.replace("_", "-") for name in met}


def turner(turned, dotted):
    """Turns whole words outside quotes; behind a dot only if `dotted`."""
    words = "|".join(sorted(map(re.escape, turned), key=len, reverse=True))
    before = "" if dotted else "."
    word = re.compile(TEXT + rf"|(?<![^\s(){{}}.;,@«»⌜`])(?<![{before or chr(0)}])({words})(?![^\s(){{}}.;,@«»⌝:`])")
    return lambda text: word.sub(lambda m: turned[m[1]] if m[1] else m[0], text)


def rust(text, turn):
    """Turns clauses and `ghost use` items alone."""
    out, at = [], 0
    for m in CLAUSE.finditer(text):
        if m.start() < at:
            continue
        end = m.end()
        if m[0].startswith("ghost use"):
            end = text.index(";", end)
        else:
            depth = 1
            while depth:
                depth += {"{": 1, "}": -1}.get(text[end], 0)
                end += 1
        out += [text[at : m.start()], turn(text[m.start() : end])]
        at = end
    return "".join(out) + text[at:]


def main():
    turned, met = table()
    if "--list" in sys.argv:
        for old, new in sorted({**turned, **met}.items()):
            print(f"{old}\t{new}")
        return
    hyphens, words = turner(met, False), turner(turned, True)
    for path in antt_files() + sorted(glob.glob("crates/*/src/**/*.rt", recursive=True)):
        text = open(path, encoding="utf-8").read()
        new = rust(text, words) if path.endswith(".rt") else words(hyphens(text))
        if new != text:
            open(path, "w", encoding="utf-8").write(new)


main()
