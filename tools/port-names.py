#!/usr/bin/env python3
"""Brings the names of definitions and lemmas to snake case, once, after port.py: `linksCheck` to `links_check`, `getD-table` to
`get_or-table`. Types, modules and what begins with a capital stay, and so do the functions of src/, exported names, strings and
the words of the kit. Run at the top of the repository."""
import os
import re

TOKEN = re.compile(r"[A-Za-zλΑ-ω_][A-Za-z0-9_'₀-₉-]*")
CAMEL = re.compile(r"[a-z0-9][A-Z]")

# Lemmas whose name a definition would take.
LEMMAS = {
    "cut_up": "cut_up-joined",
    "starts_from": "starts_from-row",
    "yes_or_no": "yes_or_no-exact",
    "out_line": "out-line",
    "end_line": "end-line",
    "read_kept": "read_kept-written",
    "get_d_map": "get_or-map",
}
# Lemmas of one file whose name another of that file would take.
ONLY = {"crates/text_theory/specs/RefusalTwo.antt": {"one_more": "one_more-read"}}
# Words of the kit in the names of lemmas, as the kit spells them now.
WORDS = {"getD": "get_or", "reverseAux": "reverse_aux"}


def files(top, *endings):
    for folder, folders, names in os.walk(top):
        folders[:] = [f for f in folders if f not in ("out", "target", ".git")]
        for name in sorted(names):
            if name.endswith(endings):
                yield os.path.join(folder, name)


def snake(word):
    if word in WORDS:
        return WORDS[word]
    if not word[:1].islower() or not CAMEL.search(word):
        return word
    return re.sub(r"([a-z0-9])([A-Z])", r"\1_\2", word).lower()


def respell(token):
    return "-".join(snake(word) for word in token.split("-"))


def change(path, rule):
    with open(path) as file:
        old = file.read()
    new = rule(old)
    if new != old:
        with open(path, "w") as file:
            file.write(new)


def main():
    ours = set()
    for path in files("crates", ".antt", ".rt"):
        with open(path) as file:
            for token in TOKEN.findall(file.read()):
                if respell(token) != token:
                    ours.add(token)

    def lemmas(path):
        only = ONLY.get(path, {})

        def rule(text):
            names = {**LEMMAS, **only}
            return TOKEN.sub(lambda m: names.get(m.group(), m.group()), text)

        return rule

    for path in files("crates", ".antt"):
        change(path, lemmas(path))
    # The label of a clause is not the name of a definition.
    label = re.compile(r"\b(requires|ensures) (\w+)_after \{")
    for path in files("crates", ".rt"):
        change(path, lambda text: label.sub(r"\1 \2_left {", text))
    names = lambda text: TOKEN.sub(lambda m: respell(m.group()) if m.group() in ours else m.group(), text)
    for path in files("crates", ".antt", ".rt", ".edit"):
        change(path, names)
    # In the pages a name stands in backquotes.
    quoted = re.compile(r"`[^`\n]+`")
    for path in ["README.md", *files("docs", ".md")]:
        change(path, lambda text: quoted.sub(lambda m: names(m.group()), text))


main()
