"""Reads the sources for tools/places: files of a checkout or a commit, functions with their clauses and bodies, types with their parts."""
import collections
import io
import pathlib
import re
import subprocess
import tarfile

MASK = re.compile(r"//[^\n]*|b?\"(?:\\.|[^\"\\])*\"|b?'(?:\\.[^']*|[^'\\])'", re.S)
HEAD = re.compile(r"^[ \t]*(?:pub(?:\([a-z]+\))? )?(?:const )?(?:extern \"C\" )?fn (\w+)(?:<[^(]*>)?\(", re.M)
TYPE = re.compile(r"^(?:pub(?:\([a-z]+\))? )?(struct|enum) (\w+)(?:<[^{;(]*>)? \{", re.M)
WORD = re.compile(r"[A-Za-z_]\w*|\d[\w.]*|'[^']*'|\"[^\"]*\"|[^\s\w]")
ENDS = (".rt", ".antt", ".edit", ".md")
KEPT = set("if else while loop match return let mut as break for in true false".split())
NUMBERS = {"u8", "u16", "u32", "u64", "usize", "i8", "i16", "i32", "i64"}

Function = collections.namedtuple("Function", "file line name params result requires body first")
Type = collections.namedtuple("Type", "file line form name parts")


def files_of(where):
    """The files of a checkout or of a commit, by their names."""
    root = pathlib.Path(where)
    if root.is_dir():
        told = subprocess.run(["git", "-C", where, "ls-files", "-co", "--exclude-standard", "crates", "docs"], check=True,
                              capture_output=True, text=True).stdout
        found = [root / n for n in sorted(set(told.split("\n"))) if n.endswith(ENDS)]
        return {p.relative_to(root).as_posix(): p.read_text(encoding="utf-8") for p in found if p.exists()}
    packed = subprocess.run(["git", "archive", where, "crates", "docs"], check=True, capture_output=True).stdout
    with tarfile.open(fileobj=io.BytesIO(packed)) as tar:
        names = [m for m in tar.getmembers() if m.isfile() and m.name.endswith(ENDS)]
        return {m.name: tar.extractfile(m).read().decode("utf-8") for m in names}


def masked(text):
    """Comments are blank, and braces in strings and letters are out of the way; every place stays where it is."""
    def put(m):
        s = m.group(0)
        return " " * len(s) if s.startswith("//") else re.sub(r"[{}();]", "_", s)
    return MASK.sub(put, text)


def closed(text, at, pair="{}"):
    """The place behind the bracket that closes the one at `at`."""
    depth = 0
    for i in range(at, len(text)):
        depth += (text[i] == pair[0]) - (text[i] == pair[1])
        if depth == 0:
            return i + 1
    return len(text)


def split(text, sign):
    """The parts between the signs that stand outside all brackets."""
    parts, depth, last = [], 0, 0
    for i, c in enumerate(text):
        depth += (c in "([{<") - (c in ")]}") - (c == ">" and text[i - 1] not in "-=")
        if c == sign and depth == 0:
            parts.append(text[last:i])
            last = i + 1
    return [" ".join(p.split()) for p in parts + [text[last:]] if p.strip()]


def conjuncts(clause):
    """The facts of a clause, those of a product each by itself."""
    c = " ".join(clause.split())
    while c.startswith("(") and closed(c, 0, "()") == len(c):
        c = c[1:-1].strip()
    depth = 0
    for i, s in enumerate(c):
        depth += (s in "([{") - (s in ")]}")
        if s == "×" and depth == 0:
            return conjuncts(c[:i]) + conjuncts(c[i + 1:])
    return [c]


def functions(files):
    for name, text in files.items():
        if not name.endswith(".rt") or "/src/" not in name:
            continue
        plain = masked(text)
        for m in HEAD.finditer(plain):
            end = closed(plain, m.end() - 1, "()")
            start = plain.index("{", end)
            head, requires = plain[end:start], []
            while re.search(r"\b(?:requires|ensures)(?: [\w']+)?\s*$", head):
                stop = closed(plain, start)
                if "requires" in head:
                    requires += conjuncts(text[start + 1:stop - 1])
                start = plain.index("{", stop)
                head = plain[stop:start]
            result = re.sub(r"'\w+ ", "", " ".join(plain[end:plain.index("{", end)].split("requires")[0].split("ensures")[0].split()))
            params = [re.sub(r"'\w+ ", "", p).replace("mut ", "", p.startswith("mut ")) for p in split(plain[m.end():end - 1], ",")]
            body = plain[start:closed(plain, start)]
            line = plain.count("\n", 0, m.start(1)) + 1
            yield Function(name, line, m.group(1), params, result.removeprefix("-> "), requires, body, plain.count("\n", 0, start) + 1)


def types(files):
    for name, text in files.items():
        if name.endswith(".rt") and "/src/" in name:
            plain = masked(text)
            for m in TYPE.finditer(plain):
                body = plain[m.end():closed(plain, m.end() - 1) - 1]
                parts = [re.sub(r"\bpub(\([a-z]+\))? ", "", p) for p in split(body, ",")]
                yield Type(name, plain.count("\n", 0, m.start(2)) + 1, m.group(1), m.group(2), tuple(parts))


# ---- 1: enums, flags, numbers

# Functions that answer a number which also says none, found by reading them.
NONE = {
    "known_keys/src/search.rt": "place_in sought", "number_lists/src/quick.rt": "quick_number from_zero",
    "lookup/src/table.rt": "entry_named attribute_named line_named", "lookup/src/lines.rt": "kind_in chosen or_else line_kind child_kind",
    "lookup/src/words.rt": "rest_place word_place word_number", "base64_reader/src/groups.rt": "bits_of quick_bits",
    "base64_reader/src/values.rt": "value_of", "judging/src/ranges.rt": "begins_at", "judging/src/structures.rt": "structure_number",
    "sheets/src/sheet.rt": "said sheet_width", "gifti_arrays/src/array.rt": "data_of", "gifti_reader/src/number.rt": "table_of",
    "describing/src/series.rt": "unit_number", "input/src/lengths.rt": "digit_at", "maps/src/fields.rt": "attribute_number",
    "vocabulary/src/lib.rt": "named structure_named unit_named kind_named", "card/src/write.rt": "write_line",
    "noting/src/sums.rt": "place_behind", "inside/src/ways.rt": "behind_tag", "elements/src/scan.rt": "near_sign near_quote",
    "front/src/list.rt": "kept",
}
