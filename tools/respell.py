#!/usr/bin/env python3
"""Brings the repository's own definitions and lemmas to snake case: tools/respell.py [--list]

`plusZero` becomes `plus_zero`, `le-number` becomes `le_number`. A dash stays before a number (`demand-3`).
Where both `plusZero` and `plus-zero` are there, the lemma becomes `plus_zero_lem`.
Types, facts and modules are in camel case already, and keep their names. Functions of src/, names of C,
strings, inputs and outputs are not touched. Run once, at the top, after the kit's port.py; --list only
prints what would be renamed, and which names would fall together.
"""
import pathlib
import re
import sys

TOKEN = re.compile(r"""[^\s(){}\[\];,.`"]+""")
ALIAS = re.compile(r"^(?:ghost )?use \S+ as ([a-z]\w*)", re.M)
LOCAL = re.compile(r"(?:let |[({])([a-z][^\s(){},;:`\"]*-[^\s(){},;:`\"]*) [:=] ")
DECLARED = re.compile(r"^ *(?:(?:unfoldable|abbrev|pub|data|record|ruleset|syntax) +)*([^\s(){},;:`\"]+(?: [^\s(){},;:`\"]+)*) *:(?: |$)", re.M)
FUNCTION_PROOF = re.compile(r"/proofs/(.*/)?[+a-z_][^/]*/[^/]+\.antt$|/proofs/.*/(Proof|Answers|Invariants)\.antt$")


# What two names that would fall together are called first.
BY_HAND = {
    "crates/sedona_expr/specs/Tables.antt": [
        ("lookup by_name ns = cond by_name (byName ns) byPosition", "lookup is_by_name ns = cond is_by_name (byName ns) byPosition"),
    ],
    "crates/sedona_expr/proofs/WantedRow.antt": [
        ("pub by_name :", "pub by_name_lem :"), ("by_name =", "by_name_lem ="),
        ("abbrev minus-zero :", "abbrev minus_zero :"), ("\nminus-zero =", "\nminus_zero ="),
        ("lo = minus-zero; hi = minus-zero", "lo = minus_zero; hi = minus_zero"),
    ],
}
# Lemmas with a dash that would fall together with a definition: they end in `_lem`.
LEMMAS = set()


def snake(name):
    """The name in snake case."""
    end = "_lem" if name in LEMMAS else ""
    name = re.sub(r"(?<=[a-zA-Z0-9])([A-Z])", lambda m: "_" + m.group(1).lower(), name)
    return re.sub(r"-(?=[^0-9-])", "_", name) + end


def is_own(name):
    """Whether the name is one of ours to be respelled: a value's, with a capital or a dash within it."""
    if not re.match(r"[a-z]", name):
        return bool(re.match(r"[→ℕ]", name)) and "-" in name
    return snake(name) != name


def files(kind):
    return sorted(p for p in pathlib.Path("crates").rglob(kind) if "out" not in p.parts)


def declared(text):
    """The names that a file's lines declare, one or several to a line."""
    return [name for names in DECLARED.findall(re.sub(r"--.*", "", text)) for name in names.split(" ")]


def law_files():
    return [p for p in files("*.antt") if not FUNCTION_PROOF.search("/" + str(p))]


def text_of(path):
    return path.read_text(encoding="utf-8")


def own_names():
    """Each name that a definition or law file declares, with the files that do."""
    found = {}
    for path in law_files():
        for name in declared(text_of(path)) + LOCAL.findall(text_of(path)):
            if is_own(name):
                found.setdefault(name, set()).add(str(path))
    for path in files("*.antt") + files("*.rt"):
        for name in ALIAS.findall(text_of(path)):
            if is_own(name):
                found.setdefault(name, set()).add(str(path))
    return found


def note_lemmas(names):
    """Where `plusZero` and `plus-zero` would both be `plus_zero`, the latter is a lemma on the former."""
    spelled = {}
    for name in names:
        spelled.setdefault(snake(name), []).append(name)
    for together in spelled.values():
        if len(together) > 1:
            LEMMAS.update(name for name in together if "-" in name)
    # The same where the definition has that name already, or is the kit's.
    for path in law_files():
        words = words_of(text_of(path))
        LEMMAS.update(word for word in words if word in names and "-" in word and snake(word) in words)


def words_of(text):
    return {part for word in TOKEN.findall(re.sub(r"--.*", "", text)) for part in word.split(".")}


def turned_before():
    """Names with a dash or a capital on the pages that port.py has respelled in the crates."""
    there = {name for path in law_files() for name in declared(text_of(path))}
    pages = {word for path in pathlib.Path(".").rglob("*.md") for part in re.findall(r"`[^`\n]*`", text_of(path))
             for word in TOKEN.findall(part)}
    return {word: set() for word in pages if is_own(word) and word not in there and snake(word) in there}


def together():
    """The places where a name, respelled, is one that its file has already."""
    names = own_names()
    note_lemmas(names)
    for path in files("*.antt"):
        text = text_of(path)
        kept = imported_from_elsewhere(text)
        words = words_of(text)
        for word in sorted(words):
            if word in names and word not in kept and snake(word) in words:
                yield f"{path}: {word} and {snake(word)}"


def imported_from_elsewhere(text):
    """The names that a file takes from the kit, or that the check makes."""
    taken = set()
    for module, names in re.findall(r"^(?:ghost )?use ([^\s{]+)\.\{([^}]*)\}", text, re.M):
        ours = re.match(r"Rattle\.(sedona_\w+|geoparquet_bbox|scan_tariff|johikape|replay\w*)\.(specs|proofs)\.[A-Z]\w*$", module)
        if not ours:
            taken |= {part.strip().split(" as ")[0] for part in names.split(",")}
    return taken


def respelled(text, names, kept, in_comments):
    out = []
    for line in text.split("\n"):
        code, mark, comment = line.partition("--") if not in_comments else (line, "", "")
        code = TOKEN.sub(lambda m: token(m.group(0), names, kept), code)
        comment = re.sub(r"`[^`]*`", lambda m: TOKEN.sub(lambda n: token(n.group(0), names, kept), m.group(0)), comment)
        out.append(code + mark + comment)
    return "\n".join(out)


def respelled_rust(line, names, kept):
    code, mark, comment = line.partition("//")
    parts = re.split(r'(b?"(?:[^"\\]|\\.)*")', code)
    parts[::2] = [respelled(part, names, kept, True) for part in parts[::2]]
    comment = re.sub(r"`[^`]*`", lambda m: respelled(m.group(0), names, kept, True), comment)
    return "".join(parts) + mark + comment


def token(word, names, kept):
    for lead in ("#", "@"):
        if word.startswith(lead):
            return lead + token(word[1:], names, kept)
    return snake(word) if word in names and word not in kept else word


def main():
    names = own_names()
    note_lemmas(names)
    if sys.argv[1:] == ["--list"]:
        for name, where in sorted(names.items()):
            print(name, snake(name), *sorted(where))
        print(*together(), sep="\n")
        return
    for path in files("*.antt") + files("*.rt") + files("*.edit"):
        text = text_of(path)
        kept = imported_from_elsewhere(text)
        for old, other in BY_HAND.get(str(path), ()):
            text = text.replace(old, other)
        if path.suffix == ".rt":
            new = re.sub(r"^.*$", lambda m: respelled_rust(m.group(0), names, kept), text, flags=re.M)
        elif path.suffix == ".edit":
            new = re.sub(r"^(old|new):.*$", lambda m: respelled(m.group(0), names, kept, True), text, flags=re.M)
        else:
            new = respelled(text, names, kept, False)
        if new != text:
            path.write_text(new, encoding="utf-8")
    # Of the pages, what port.py has respelled too, and what stands between backticks.
    for path in sorted(p for p in pathlib.Path(".").rglob("*.md") if not {"out", ".git"} & set(p.parts)):
        text = text_of(path)
        new = re.sub(r"`[^`\n]*`", lambda m: respelled(m.group(0), names | turned_before(), set(), True), text)
        if new != text:
            path.write_text(new, encoding="utf-8")


if __name__ == "__main__":
    main()
