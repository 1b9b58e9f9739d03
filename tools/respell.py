#!/usr/bin/env python3
"""Brings the repository's own definitions and lemmas to the library's spelling.

Run once at the top of the repository, after the kit's porting script: python3 tools/respell.py
Words are in snake case, and a dash joins two names: a lemma that is named by plain words has no dash.
Functions of src/, strings, inputs and outputs keep their names.

Two lemmas get another name, since in snake case they would fall together with a definition:
`number-token` with `numberToken`, and `words-in` with `wordsIn`; their neighbours go with them.
"""
import os
import re

# Definitions of specs/.
DEFINITIONS = """
afterWord answerText backDoes backImage backLevel callAnswer firstThen kindIn kindName kindToken layerText lineText
madeBy numberToken refusalText scriptFrom scriptOf throughDoes throughImage throughLevel tokenOf verbOf verbToken
""".split()

# Lemmas of proofs/ that are named by plain words.
LEMMAS = """
cut-more drift-none drift-one drift-settled drift-then line-says pieces-cut reads-back refused-read restored-all
restored-more settles-settled settles-stay settles-take settles-then text-push until-all until-flaw until-more
""".split()

RENAMED = {
    "number-token": "token_of-decimal",
    "digits-token": "token_of-digits",
    "words-in": "words_in_text",
    "lines-in": "lines_in_text",
}

# What the kit's script renames in code and proofs, for the documents, which it leaves.
IN_DOCUMENTS = {
    "answerOf": "answer_of",
    "imageOf": "image_of",
    "kindAt": "kind_at",
    "kindOf": "kind_of",
    "numberAt": "number_at",
    "numberIn": "number_in",
    "numberOf": "number_of",
    "sizeOf": "size_of",
    "wordAt": "word_at",
    "wordsIn": "words_in",
    "wordsOf": "words_of",
}


def snake(name):
    return re.sub(r"(?<=[a-z])([A-Z])", lambda m: "_" + m.group(1).lower(), name)


def turned(text, names):
    word = re.compile(r"(?<![\w'-])(?:" + "|".join(sorted(map(re.escape, names), key=len, reverse=True)) + r")(?![\w'-])")
    return word.sub(lambda m: names[m.group(0)], text)


def files(top, ends):
    for folder, _, names in os.walk(top):
        if "out" in folder.split(os.sep):
            continue
        for name in sorted(names):
            if name.endswith(ends):
                yield os.path.join(folder, name)


def main():
    names = {name: snake(name) for name in DEFINITIONS}
    names.update((name, name.replace("-", "_")) for name in LEMMAS)
    names.update(RENAMED)
    sources = [(path, names) for path in files("crates", (".rt", ".antt"))]
    documents = [(path, {**names, **IN_DOCUMENTS}) for path in list(files("docs", (".md",))) + ["README.md"]]
    for path, table in sources + documents:
        old = open(path, encoding="utf-8").read()
        new = turned(old, table)
        if new != old:
            open(path, "w", encoding="utf-8").write(new)


if __name__ == "__main__":
    main()
