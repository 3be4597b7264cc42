#!/usr/bin/env python3
"""Spells the repository's own definitions and lemmas in snake case: `isWhole` as `is_whole`, `all-below-more` as `all_below_more`.

usage: tools/respell.py [--check] [TOP]

Reads every .antt file below crates/ for the names that it declares, and turns them there, in the clauses and ghost imports of .rt files, in the
lines of must-fail edits, and in code spans of comments and of .md files. Types, modules, functions of src/ and what Rattle generates for a proof
that walks the code keep their names. Two names that would fall together are printed, and nothing is written.
--check prints the table and the names that fall together, and writes nothing. It was run once, after port.py.
"""
import os
import re
import sys

WORD = re.compile(r'[^\s(){}.;,@"«»`\[\]|:/]+|:(?=\s)')
TOKEN = r'[^\s(){}.;,@"«»`]+'
DECLARED = re.compile(rf"(?m)^( *)((?:(?:pub|abbrev|unfoldable|record|data|ruleset|opaque|private|instance|auto) +)*)({TOKEN})((?: \{{[^{{}}\n]*\}})*) :(?= |$)(.*)")
GENERATED = re.compile(r"^ *(tie|goal|this|code)\.")


def snake(name):
    words = re.sub(r"(?<=[a-z0-9])[A-Z]", lambda m: "_" + m[0].lower(), name)
    return re.sub(r"(?<=[^\s-])-(?=[^\s-])", "_", words)


# What stands before a name that a path of a library's module has.
IN_LIBRARY = re.compile(r"\b(proofs|specs)(\.\w+)*\.$")
# Names within a proof that would get the name of a definition, by files.
LOCAL = {
    "crates/codec/proofs/RowListRead.antt": {"row_fits": "row_held", "count_fits": "count_held"},
    "crates/codec/proofs/RowListWritten.antt": {"row_fits": "row_held", "count_fits": "count_held"},
    "crates/rowlists/proofs/RowsLaws.antt": {"row_fits": "row_held", "count_fits": "count_held"},
}
# The modules of a walk, which are named after its function.
WALK = re.compile(r"proofs\.(?:\w+\.)*(\w+)\.(?:Statement|Tie|Goals|Given)")


def DECLARED_NAMES(text):
    code = "".join(it for is_comment, it in comments_apart(text) if not is_comment)
    return {it[2] for it in DECLARED.findall(code) if not GENERATED.match(it[4])}


def is_word(name):
    return re.match(r"[a-z]", name) or re.match(r"[^\x00-\x7f+*-].*-[a-z]", name) or re.match(r"[+*-]ℤ-", name)


def files(top):
    for at, folders, names in os.walk(top):
        folders[:] = sorted(it for it in folders if it not in ("out", "target", ".git"))
        for it in sorted(names):
            yield os.path.join(at, it)


def comments_apart(text):
    """Pieces of an .antt text: (is_comment, piece)."""
    at = 0
    for it in re.finditer(r'(?<![^\s(){}.;,@"«»])--[^\n]*|"(?:[^"\\\n]|\\.)*"', text):
        yield False, text[at : it.start()]
        yield True, it[0]
        at = it.end()
    yield False, text[at:]


def main():
    check = "--check" in sys.argv
    top = ([it for it in sys.argv[1:] if not it.startswith("--")] or ["."])[0]
    crates = os.path.join(top, "crates")
    texts = {it: open(it, encoding="utf-8").read() for it in files(crates) if it.endswith((".antt", ".rt", ".edit"))}
    for path, local in LOCAL.items():
        for old, new in local.items():
            at = os.path.join(top, path)
            texts[at] = re.sub(rf'(?<![^\s(){{}};,@"«»]){old}(?![^\s(){{}}.;,])', new, texts[at])
    declared, made = {}, set()
    for path, text in texts.items():
        if not path.endswith(".antt"):
            continue
        code = "".join(it for is_comment, it in comments_apart(text) if not is_comment)
        for _, _, name, _, kind in DECLARED.findall(code):
            name = name.lstrip("(")
            if GENERATED.match(kind) or "statement M" in kind or not is_word(name):
                made.add(name) if GENERATED.match(kind) else None
                continue
            if snake(name) != name:
                declared.setdefault(name, set()).add(path)
    table = {it: snake(it) for it in declared}
    # A name stands bare in a file where no dot is before it.
    bare = re.compile(rf'(?<![^\s(){{}};,@"«»`\[\]|!⟨]){TOKEN}')
    heres = {}
    for path, text in texts.items():
        if path.endswith(".antt"):
            code = "".join(it for is_comment, it in comments_apart(text) if not is_comment)
            heres[path] = set(bare.findall(code)) - set(WALK.findall(code))
        elif path.endswith(".rt"):
            code = re.sub(r"//[^\n]*", "", text)
            heres[path] = set(re.findall(r"(\w+)(?=: )", code)) | set(bare.findall("".join(re.findall(r"ghost use[^;]*;", code))))
    # A lemma that would get the name of what it is about ends in `_lem`.
    made_new = {new for old, new in table.items() if "-" not in old}
    for path, here in heres.items():
        for name in here & set(table):
            if "-" in name and (table[name] in here or snake(name) in made_new):
                table[name] = snake(name) + "_lem"
        for name in here & made_new:
            if name in DECLARED_NAMES(texts[path]) and path.endswith(".antt"):
                table[name] = name + "_lem"
    falls = []
    for path, here in heres.items():
        for name in here & set(table):
            new = table[name]
            if new in here and new not in table:
                falls.append((path, name, new))
    by_new = {}
    for old, new in table.items():
        by_new.setdefault(new, set()).add(old)
    for new, olds in by_new.items():
        if len(olds) > 1:
            falls.append(("everywhere", " ".join(sorted(olds)), new))
    if check:
        for old in sorted(table):
            print(f"{old}\t{table[old]}")
    for path, old, new in falls:
        print(f"falls together: {path}: {old} -> {new}", file=sys.stderr)
    print(len(table), "names,", len(falls), "fall together", file=sys.stderr)
    if check:
        return

    walk = re.compile(r"/proofs/.*/Proof\.antt$")
    pattern = re.compile(rf'(?<![^\s(){{}}.;,@"«»`\[\]|!⟨]){TOKEN}')


    def code_turned(text, is_walk, is_antt=True):
        def one(it):
            name = it[0]
            if name not in table:
                return name
            before, after = text[max(0, it.start() - 1) : it.start()], text[it.end() : it.end() + 1]
            # A name in snake case before is a lemma's, where the code may have a function of that name.
            if name == snake(name) and (not is_antt or before == "." or after == "."):
                return name
            if is_walk and before == "." and not IN_LIBRARY.search(text[max(0, it.start() - 80) : it.start()]):
                return name
            if is_walk and name in made and before != "{":
                return name
            return table[name]

        return pattern.sub(one, text)

    def spans(text):
        return re.sub(r"`[^`\n]+`", lambda it: code_turned(it[0], False, False), text)

    for path, text in texts.items():
        if path.endswith(".antt"):
            is_walk = bool(walk.search(path.replace(os.sep, "/")))
            new = "".join(spans(it) if is_comment else code_turned(it, is_walk) for is_comment, it in comments_apart(text))
        elif path.endswith(".rt"):
            pieces = re.split(r'(//[^\n]*|"(?:[^"\\\n]|\\.)*")', text)
            new = "".join(spans(it) if it.startswith("//") else it if it.startswith('"') else code_turned(it, False, False) for it in pieces)
        else:
            new = "".join(
                code_turned(it, False, False) if it.startswith(("old: ", "new: ")) and '"' not in it else it for it in text.splitlines(True)
            )
        if new != open(path, encoding="utf-8").read():
            with open(path, "w", encoding="utf-8") as f:
                f.write(new)
    for path in files(top):
        if path.endswith(".md") and os.sep + "out" + os.sep not in path:
            text = open(path, encoding="utf-8").read()
            new = spans(text)
            if new != text:
                with open(path, "w", encoding="utf-8") as f:
                    f.write(new)


if __name__ == "__main__":
    main()
