#!/usr/bin/env python3
"""Brings the names of our definitions, laws, fields and cases to one spelling: words in snake case, types as they are.

    tools/spelling.py [--check] [--docs]

A name that specs/ or a file of laws in proofs/ declares gets an underscore where it had a dash, and before a capital inside a word, which
becomes small; a part that begins with a capital is a type and stays. Where the new name already stands in a file with the old one, or two
names would become one, the later gets `_lem`; where that stands there too, the name stays, and is printed. Turned are the files of specs/,
proofs/, src/ and must-fail/; in a comment only what stands between backquotes or has a capital inside. --docs turns what stands between
backquotes in README.md and docs/ instead, by the table that the first run wrote (docs/names.tsv). --check writes nothing.
"""
import collections
import pathlib
import re
import sys

ROOT = pathlib.Path(__file__).resolve().parent.parent
TABLE = ROOT / "docs" / "names.tsv"
# Laws that have, by the first turn of the names, the name that their definition gets now.
LAWS_OF_A_NAME = """any_order below_in code_here each_in is_word key_here map_of no_front no_name no_table or_else part_by runs_on
  same_key""".split()
WORD = re.compile(r'[^\s(){}.;,@"«»`]+')
NAME = r"[a-zA-Z_α-ωℕ][A-Za-z0-9_'ℕα-ω₀-₉²³]*(?:-[A-Za-z0-9_'ℕα-ω₀-₉²³]+)*"
SIGNATURE = re.compile(rf"^\s*(?:(?:abbrev|unfoldable|pattern|pub|axiom) )*({NAME}(?: {NAME})*)(?: \{{[^}}]*\}})* *:(?![:=])")


def sources():
    for path in sorted((ROOT / "crates").rglob("*")):
        parts = path.relative_to(ROOT / "crates").parts
        if path.is_file() and path.suffix in (".antt", ".rt", ".edit") and "out" not in parts:
            yield path, parts


def of_function(parts):
    return parts[1] == "proofs" and len(parts) > 3


def snake(name):
    parts = [part if part[:1].isupper() else re.sub(r"(?<=[a-z0-9])[A-Z]", lambda m: "_" + m[0].lower(), part) for part in name.split("-")]
    return parts[0] + "-" + "_".join(parts[1:]) if len(parts) > 1 and name[:1].isupper() else "_".join(parts)


def comment_mark(path):
    return {".antt": "--", ".rt": "//", ".edit": "#"}[path.suffix]


def turn_text(text, table, kept, path):
    """Each word of the table in code; in a comment those between backquotes, and those with a capital inside."""
    after_dot, everywhere = kept
    mark = comment_mark(path)

    def turned(match, line):
        word = match[0]
        if word not in table or word in everywhere:
            return word
        if word in after_dot and match.start() and line[match.start() - 1] == ".":
            return word
        return table[word]

    lines = []
    for line in text.split("\n"):
        at = re.search(r"(?<!\S)" + re.escape(mark), line)
        code, comment = (line[: at.start()], line[at.start() :]) if at else (line, "")
        code = WORD.sub(lambda m: turned(m, code), code)
        comment = re.sub(r"`[^`]*`", lambda span: WORD.sub(lambda m: turned(m, span[0]), span[0]), comment)
        comment = WORD.sub(lambda m: turned(m, comment) if re.search("[a-z][A-Z]", m[0]) else m[0], comment)
        lines.append(code + comment)
    return "\n".join(lines)


def declared(text):
    """The names that have a signature, and of them those of a field or of a case: they stand in a block of `record` or `data`."""
    found, members, block = set(), set(), None
    for line in text.split("\n"):
        depth = len(line) - len(line.lstrip())
        if line.strip() and block is not None and depth <= block:
            block = None
        if re.match(r"\s*(?:pub )?(?:data|record) [A-Za-z]", line):
            block = depth
            continue
        match = SIGNATURE.match(line)
        if match:
            found.update(match[1].split())
            if block is not None:
                members.update(match[1].split())
    return found, members


def names_in(text, path):
    """The names that another could meet there: not the way of a module, and in src/ no function of ours, which a clause can't name."""
    text = re.sub(r"(?m)^(\s*(?:ghost )?(?:pub )?use )[^{;\n]*(?=\{)", r"\1", text)
    if path.suffix == ".rt":
        text = re.sub(r"(?m)^\s*(?:pub )?(?:use|mod) [^;]*;", "", text)
        text = re.sub(r"\w+(?=\()", "", text)
        text = re.sub(r"(?m)//.*", "", text)
    else:
        text = re.sub(r"(?m)^\s*(?:pub )?(?:use|mod) [^{\n]*$", "", text)
        text = re.sub(r"(?m)(?<!\S)--.*", "", text)
    return set(WORD.findall(text))


def freed(text, path, parts):
    """The names of LAWS_OF_A_NAME with `_lem`, a field and a way of a module with names of their own."""
    if path.suffix == ".rt":
        return text
    names = "|".join(LAWS_OF_A_NAME)
    text = re.sub(rf"(?<![^\s(){{}}.;,@\"«»`])({names})(?![^\s(){{}}.;,@\"«»`])", r"\1_lem", text)
    if "proofs" not in parts:
        field = parts[0] in ("gifti_arrays", "gifti_reader", "known_keys", "key_twice")
        text = re.sub(r"(?<![\w-])in_order(?![\w-])", "in_order_so" if field else "in_order_lem", text)
    if parts[:2] == ("shortlisting", "proofs") and "contracts.entries.model_at as model_at" in text:
        text = re.sub(r"(?<![\w.-])model_at(?=[. )])(?!-)", "model_at_fn", text)
    return text


def main():
    writes = "--check" not in sys.argv
    if "--docs" in sys.argv:
        table = dict(line.split("\t") for line in TABLE.read_text(encoding="utf-8").splitlines())
        for path in [ROOT / "README.md", *sorted((ROOT / "docs").rglob("*.md"))]:
            text = path.read_text(encoding="utf-8")
            new = re.sub(r"`[^`\n]*`", lambda s: WORD.sub(lambda m: table.get(m[0], m[0]), s[0]), text)
            if new != text and writes:
                path.write_text(new, encoding="utf-8")
        return
    texts = {path: freed(path.read_text(encoding="utf-8"), path, parts) for path, parts in sources()}
    words = {path: names_in(text, path) for path, text in texts.items()}
    where = collections.defaultdict(set)
    for path, found in words.items():
        for word in found:
            where[word].add(path)
    ours, members, answers = set(), set(), {}
    for path, parts in sources():
        if path.suffix == ".antt":
            names, inner = declared(texts[path])
            members |= inner
            if of_function(parts):
                answers[path] = names
            else:
                ours |= names
    table, stays = {}, []
    for name in sorted(ours, key=lambda n: ("-" in n, n)):
        if snake(name) == name:
            continue
        for new in (snake(name), snake(name) + "_lem"):
            met = where[name] & where.get(new, set())
            if not met and new not in table.values():
                table[name] = new
                break
            if "--why" in sys.argv:
                print(name, new, *sorted(str(path.relative_to(ROOT / "crates")) for path in met)[:3])
        else:
            stays.append(name)
    # behind a dot, a name with a dash that is no field and no case of ours is one that the check makes
    labels = set().union(*answers.values()) if answers else set()
    labels |= {name for name in table if "-" in name and name not in members}
    for path, parts in sources():
        kept = (labels, answers.get(path, set()) - set()) if of_function(parts) else (set(), set())
        imported = set()
        for line in texts[path].split("\n"):
            if re.match(r"\s*(?:pub )?use ", line):
                imported |= set(WORD.findall(line))
        kept = (kept[0], kept[1] - imported)
        new = turn_text(texts[path], table, kept, path)
        if writes and new != path.read_text(encoding="utf-8"):
            path.write_text(new, encoding="utf-8")
    if writes:
        TABLE.write_text("".join(f"{old}\t{new}\n" for old, new in sorted(table.items())), encoding="utf-8")
    print(len(table), "names turned;", sum(new.endswith("_lem") for new in table.values()), "with _lem; stay:", *stays)


if __name__ == "__main__":
    main()
