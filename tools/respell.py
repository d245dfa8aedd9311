#!/usr/bin/env python3
"""Brings the repository's own names of definitions and lemmas to the spelling that Rattle's library has: words in snake case, types and modules in camel case.

usage: tools/respell.py [ROOT]       once, after the kit's port.py: crates/, edits and the names in docs/ are written anew

- a word that begins small and has a capital inside: isStruct -> is_struct, shownBy-as -> shown_by-as. This also holds for edits and for `code` in the documents.
- a definition, field or constructor of specs/ whose words a dash joins: check-api -> check_api. In a lemma's name a dash joins names, and stays.
- the modules of laws/proofs: laws.proofs.base -> laws.proofs.Base.
The kinds of rows and items (Ident, CxxType ..) keep the spelling of the Rust's variants, as Rust names do. Functions of src/ are in snake case as they are.
A lemma that would have its function's name gets `_lem`. Names that would fall together are told, and nothing else is written then.
"""
import pathlib, re, sys

ROOT = pathlib.Path(sys.argv[1] if len(sys.argv) > 1 else ".").resolve()
CRATES = ROOT / "crates"
# lemmas of specs/: there a dash joins names
LEMMAS = {"count-append", "put-append", "also-if", "meant-if", "when-left", "when-taken", "unless-when"}
# lemmas that would have their function's name
SAME = {"laws/proofs/sheet/RowTrees.antt": "numbers_as", "types/proofs/Counting.antt": "one_more"}
MODULES = ["base", "graph", "names", "sheet", "rows", "report", "rule3"]
CAMEL = re.compile(r"(?<![A-Za-z0-9_])[a-z][a-z0-9_]*[a-z0-9][A-Z][A-Za-z0-9_]*")
# a name of antt, and what may not stand beside one
LETTER = r"A-Za-z0-9_'?\-"
SIGNATURE = re.compile(r"^(\s*)((?:abbrev |unfoldable )?(?:pub )?(?:data |record )?)([^\s:(){}|]+)(\s+:\s|\s*\(|\s*\{|\s*$|\s+where)", re.M)


def files(*endings):
    return sorted(p for p in CRATES.rglob("*") if p.suffix in endings and "out" not in p.relative_to(CRATES).parts)


def plain(text):
    """Without comments."""
    return re.sub(r"--.*", "", text)


def snake(word):
    word = re.sub(r"([a-z0-9])([A-Z])", r"\1_\2", word)
    return re.sub(r"([A-Z])([A-Z][a-z])", r"\1_\2", word).lower()


def camels():
    """Every word of the definitions and proofs with a capital inside."""
    found = set()
    for path in files(".antt"):
        found |= set(CAMEL.findall(plain(path.read_text())))
    return {word: snake(word) for word in sorted(found)}


def dashed():
    """Names that specs/ gives to a definition, a field or a constructor, joined by dashes."""
    found = set()
    for path in files(".antt"):
        if "specs" in path.relative_to(CRATES).parts:
            for _, mark, name, _ in SIGNATURE.findall(plain(path.read_text())):
                if "-" in name and name not in LEMMAS and re.fullmatch(r"[A-Za-z][A-Za-z0-9_'\-]*", name):
                    found.add(name)
    return {name: snake(name).replace("-", "_") for name in sorted(found)}


def put(text, words, names):
    text = CAMEL.sub(lambda m: words.get(m.group(0), m.group(0)), text)
    for old, new in names.items():
        text = re.sub(rf"(?<![{LETTER}]){re.escape(old)}(?![{LETTER}])", new, text)
    return text


def modules(text):
    for name in MODULES:
        text = re.sub(rf"(laws\.proofs\.|laws/proofs/){name}(?=[./`}}\s]|$)", rf"\g<1>{name.capitalize()}", text)
    return text


def together(words, names):
    """Targets that a file has already as another word."""
    wrong = []
    for path in files(".antt"):
        text = plain(path.read_text())
        here = set(re.findall(rf"(?<![{LETTER}.])[A-Za-z_][{LETTER}]*", text))
        for old, new in [*words.items(), *names.items()]:
            if old in here and new in here:
                wrong.append(f"{path.relative_to(ROOT)}: {old} and {new}")
    return wrong


def lemmas():
    for place, name in SAME.items():
        path = CRATES / place
        text = path.read_text()
        if re.search(rf"^\s*{name} : ", text, re.M):
            path.write_text(re.sub(rf"(?<![{LETTER}]){name}(?![{LETTER}])", f"{name}_lem", text))


def main():
    lemmas()
    words, names = camels(), dashed()
    wrong = together(words, names)
    if wrong:
        sys.exit("\n".join(f"together: {w}" for w in wrong))
    for path in files(".antt", ".rt", ".edit"):
        old = path.read_text()
        new = modules(put(old, words, names))
        if new != old:
            path.write_text(new)
    laws = CRATES / "laws" / "proofs"
    lib = laws / "Lib.antt"
    lib.write_text(re.sub(rf"^pub mod ({'|'.join(MODULES)})$", lambda m: f"pub mod {m.group(1).capitalize()}", lib.read_text(), flags=re.M))
    for name in MODULES:
        for was in (laws / f"{name}.antt", laws / name):
            if was.exists():
                was.rename(laws / was.name.replace(name, name.capitalize()))
    code = re.compile(r"`[^`\n]+`")
    for path in [ROOT / "README.md", ROOT / "oracle/README.md", *sorted((ROOT / "docs").glob("*.md"))]:
        if path.exists():
            old = path.read_text()
            new = modules(code.sub(lambda m: put(m.group(0), words, names), old))
            if new != old:
                path.write_text(new)
    for word, new in [*words.items(), *names.items()]:
        print(f"{word} {new}")


if __name__ == "__main__":
    main()
