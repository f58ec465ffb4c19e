#!/usr/bin/env python3
"""Brings the names of definitions and lemmas from camel case to snake case, in sources, proofs, edits and documents.

usage: tools/snake_names.py, at the top of the repository, once. A name counts that stands in specs/ or proofs/ of a
crate and begins with a small letter; parts joined by a dash are turned one by one. Types, functions
of src/, fields, strings, inputs and outputs keep their spelling. A lemma that would have the name of a definition gets
`_lem`, a definition that would have the name of a clause `_of`."""
import glob
import re
import sys

WORD = r"(?<![\w\\])[^\s(){}.,;:\[\]⌜⌝`\"'|/<>=+*&!\\·]+'*"
CAMEL = re.compile(r"[a-z0-9][A-Z]")
LEMMAS = {"chunk_part": "crates/price/proofs", "end_line": "crates/listing_text/proofs",
          "none_has": "crates/relation_laws/proofs", "row_words": "crates/price/proofs"}
DEFINITIONS = {"dayValue": "day_value_of"}


def sources() -> list[str]:
    return sorted(glob.glob("crates/*/specs/**/*.antt", recursive=True) + glob.glob("crates/*/proofs/**/*.antt", recursive=True))


def snake(name: str) -> str:
    def part(text: str) -> str:
        if not (CAMEL.search(text) and text[0].islower()):
            return text
        text = re.sub(r"IDs\b", "_ids", text)
        text = re.sub(r"([a-z0-9])([A-Z])", r"\1_\2", text)
        return re.sub(r"([A-Z]+)([A-Z][a-z])", r"\1_\2", text).lower()

    return DEFINITIONS.get(name) or "-".join(part(text) for text in name.split("-"))


def names() -> dict[str, str]:
    """Each name in camel case, and its new spelling."""
    found = set()
    for path in sources():
        with open(path, encoding="utf-8") as f:
            found |= {word for word in re.findall(WORD, f.read()) if word[0].islower() and CAMEL.search(word)}
    turned = {name: snake(name) for name in found}
    turned = {name: new for name, new in turned.items() if name != new}
    same = [new for new in turned.values() if list(turned.values()).count(new) > 1]
    if same:
        sys.exit(f"names that fall together: {sorted(set(same))}")
    return turned


def already(turned: dict[str, str], paths: list[str]) -> dict[str, str]:
    """Names that the sources have in snake case already, and edits and documents in camel case still."""
    words = set()
    for path in sources():
        with open(path, encoding="utf-8") as f:
            words |= set(re.findall(WORD, f.read()))
    found = {}
    for path in paths:
        with open(path, encoding="utf-8") as f:
            for word in re.findall(WORD, f.read()):
                if word[0].islower() and CAMEL.search(word) and word not in turned and snake(word) in words:
                    found[word] = snake(word)
    return found


def main() -> None:
    turned = names()
    texts = sorted(glob.glob("crates/*/must-fail/*.edit")) + ["README.md", "samples/README.md"]
    texts += [path for path in sorted(glob.glob("docs/**/*.md", recursive=True)) if not path.startswith("docs/PORT")]
    turned |= already(turned, texts)
    for path in sources() + sorted(glob.glob("crates/*/src/**/*.rt", recursive=True)) + texts:
        with open(path, encoding="utf-8") as f:
            text = f.read()
        new = text
        for word, folder in LEMMAS.items():
            if path.startswith(folder):
                new = re.sub(rf"(?<![\w'·.-]){word}(?![\w'-])", word + "_lem", new)
        new = re.sub(WORD, lambda m: turned.get(m[0], m[0]), new)
        if new != text:
            with open(path, "w", encoding="utf-8") as f:
                f.write(new)


main()
