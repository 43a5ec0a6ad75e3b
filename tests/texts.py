"""Many thousand texts from a seed, valid and damaged, long and short.

    python3 tests/texts.py --count 10000 --seed 1     the spread of answers, by the oracle
    python3 tests/texts.py --write DIR --count 50     the texts as files

`case(seed, number)` is the same text in every run, whatever came before it.
"""
import argparse
import collections
import pathlib
import random
import sys

import byte_damages
import damages
import documents
import paper

# A text with what is lent to read it; `aim` is what its last damage aims at.
Case = collections.namedtuple("Case", "label aim text lengths records_room work_room")

SIZES = [1, 2, 3, 5, 8, 8, 20, 20, 60]
TEXT_LIMIT = 16777216
CARD_TEXT = 32768


def size_of(rng, large):
    if rng.random() < 0.01:
        return 3000
    if large and rng.random() < 0.002:
        return 60000
    return rng.choice(SIZES)


def spoil_document(rng, doc):
    """One damage of the document, or two; the aim is the smaller."""
    aims, names = [], []
    for _ in range(rng.choice([1, 1, 1, 1, 2])):
        for _ in range(20):
            aim, damage = rng.choice(damages.ON_DOCUMENTS)
            try:
                done = damage(rng, doc)
            except (ValueError, IndexError, TypeError, AttributeError, StopIteration):
                done = False    # a damage before this one took away what it needs
            if done:
                aims.append(aim)
                names.append(damage.__name__)
                break
    return min(aims, default=0), "+".join(names) or "valid"


def rooms(rng, doc, short):
    """Room for the records and for the work: enough, or one too few."""
    records = doc.records + rng.choice([0, 0, 1, 5])
    work = doc.longest + rng.choice([0, 0, 1, 5])
    if short and doc.records:
        if rng.random() < 0.5:
            records = doc.records - rng.choice([1, doc.records])
        else:
            work = doc.longest - rng.choice([1, doc.longest])
    return records, work


def pad(rng, text, over):
    """The text with a comment after it, as long as the limit or `over` more."""
    room = TEXT_LIMIT + over - len(text) - 7
    return text + b"<!--" + b"-a<&>" * (room // 5) + b"x" * (room % 5) + b"-->"


def nonsense(rng):
    """Bytes without a plan."""
    count = rng.choice([0, 1, 2, 5, 30])
    return b"".join(rng.choice(byte_damages.PIECES + [b"a", b"CIFTI", b"b='1'"]) for _ in range(count))


def markup_only(rng, style):
    """A document that is no CIFTI header: deep, wide, or odd."""
    depth = rng.choice([1, 2, 15, 16, 16, 17, 17])
    inner = None
    for _ in range(depth):
        values = [("b", rng.choice(documents.PHRASES))] if rng.random() < 0.2 else ()
        inner = documents.Node("a", values, ([inner] if inner else []) + ([rng.choice(documents.PHRASES)] if rng.random() < 0.2 else []))
    return style.write(inner)


def line_ends(seed, number):
    """A small document with returns and line feeds everywhere that they may stand, in every order."""
    rng = random.Random(f"{seed}/line ends/{number}")
    ends, inside = ["\r", "\n", "\r\n"], ["x", " ", "&amp;", "]", "é"]

    def some(pieces, least=0):
        return "".join(rng.choice(pieces) for _ in range(rng.randint(least, 6)))

    values = "".join(f"{some(ends, 1)}{name}{some(ends)}={some(ends)}{quote}{some(3 * ends + inside)}{quote}"
                     for name, quote in ("b'", 'c"'))
    contents = some(4 * ends + inside + ["<!---->", "<!--\r\n-\r-->", "<c/>", "<d>\r</d>"])
    return f"{some(ends)}<a{values}{some(ends)}>{contents}</a{some(ends)}>{some(ends)}".encode()


def marked(seed, number):
    """A small document with CDATA among text, brackets, references, comments and ends of lines, in every order, and DOCTYPEs before it."""
    rng = random.Random(f"{seed}/marked/{number}")
    pieces = ["<![CDATA[", "]]>", "]", "]]", ">", "\r", "\n", "x", " ", "&amp;", "&gt;", "<!---->", "<b/>", "<b>\r</b>", "é", "]]>",
              "<![CDATA[]]>", "<![CDATA[\r]]>", "<![CDATA[<b>&]]>", "<![CDATA[]]]]>", "<![CDATA[>]]>", "<![CDATA[--]]>"]
    good = [piece for piece in pieces if piece not in ("<![CDATA[", "]]>", ">")]
    before = "".join(rng.choice(["", "", " ", "<!---->"] + documents.DOCTYPES) for _ in range(rng.choice([0, 0, 1, 2])))
    inside = "".join(rng.choice(pieces if rng.random() < 0.3 else good) for _ in range(rng.randint(0, 9)))
    return f"{before}<a>{inside}</a>".encode()


def case(seed, number, large=False):
    """The text of this seed and number."""
    rng = random.Random(f"{seed}/{number}")
    doc = documents.Document(rng, size_of(rng, large))
    style = documents.Style(rng, rng.choice([0, 0, 0.02, 0.1, 0.3]))
    way = rng.random()
    short = rng.random() < 0.1
    lengths, (records, work) = doc.lengths, rooms(rng, doc, short)
    aim, label = (13, "room") if short and doc.records else (0, "valid")
    if way < 0.58:
        damage_aim, label = spoil_document(rng, doc)
        aim = min(a for a in (aim or 99, damage_aim or 99)) % 99
        text = style.write(doc.root)
    elif way < 0.80:
        text = style.write(doc.root)
    elif way < 0.93:
        text, label = style.write(doc.root), "bytes"
        for _ in range(rng.choice([1, 1, 1, 2, 4])):
            damage = rng.choice(byte_damages.ON_BYTES)
            if text:
                text = damage(rng, text)
                label += "+" + damage.__name__
        aim = None
    elif way < 0.96:
        text, label, aim = style.write(doc.root), "lengths", 1
        lengths = rng.choice(damages.LENGTHS)
    elif way < 0.98:
        text, label, aim = markup_only(rng, style), "markup", None
    else:
        text, label, aim = nonsense(rng), "nonsense", None
    if large and rng.random() < 0.002:
        over = rng.choice([0, 0, 1])
        text, label = pad(rng, text, over), label + f"+limit{over:+}"
        aim = 2 if over and aim != 1 else aim
    return Case(label, aim, text, list(lengths), records, work)


BAD_LINES = [b"", b"\n", b"2\n", b"2,\n", b",2\n", b"2,3\r\n", b" 2,3\n", b"2, 3\n", b"2,3 \n", b"2;3\n", b"+2,3\n", b"2,3,\n",
             b"00000002,3\n",
             b"0,3\n", b"1048577,3\n", b"2,3,4,5\n", b"x\n", b"2,3", b"99999999999999999999,3\n", b"2,,3\n", b"\xc2\xb2,3\n", b"-2,3\n"]


def card_case(seed, number):
    """A whole standard input for the lister."""
    one = case(seed, number)
    rng = random.Random(f"{seed}/card/{number}")
    line, text = ",".join(map(str, one.lengths)).encode() + b"\n", one.text
    if rng.random() < 0.05:
        line = rng.choice(BAD_LINES)
    if rng.random() < 0.03:
        text += b" " * (CARD_TEXT + rng.choice([0, 1, 2, 4000]) - len(text))
    return line + text


def limit_cards():
    """(name, a whole standard input, how its card begins): Case A made as large as the lister takes it, and one more."""
    for count, begins in [(2048, b"ok\n0 scalars 2\n1 brain 2048 0\n0 S 18 0\n"), (2049, b"refused 13\n")]:
        text = paper.CASE_A
        for old, new in [(b'Offset="2"', b'Offset="%d"' % (count - 1)), (b'Count="2"', b'Count="%d"' % (count - 1)),
                         (b'Vertices="5"', b'Vertices="4096"'), (b">4 1<", b">%s<" % b" ".join(b"%d" % n for n in range(count - 1)))]:
            assert text.count(old) == 1
            text = text.replace(old, new)
        yield f"{count} records", b"2,%d\n" % count + text, begins
    for size, line, begins in [(0, b"2,3\n", paper.CARD_A), (1, b"2,3\n", b"refused 2\n"), (1, b"0,3\n", b"refused 1\n"),
                               (70000, b"2,3\n", b"refused 2\n")]:
        yield f"{CARD_TEXT + size} bytes", line + paper.CASE_A.ljust(CARD_TEXT + size), begins


def questions(rng, lengths):
    """Dimensions and indices to ask map names for: some that exist, some that do not."""
    asked = []
    for dimension in range(len(lengths) + 1):
        length = lengths[dimension] if dimension < len(lengths) else 1
        asked.append((dimension, rng.choice([0, length - 1 if length else 0, length, rng.randrange(length or 1)])))
    asked.append((rng.choice([2, 3, 2 ** 32, 2 ** 64 - 1]), 0))
    asked.append((rng.randrange(len(lengths) or 1), rng.choice([2 ** 32, 2 ** 63, 2 ** 64 - 1])))
    return asked


# ------------------------------------------------------------ records and sheets

def record(rng, bits=48):
    """Legal mostly, some just over a limit; with so many bits of payload."""
    structure = rng.randrange(32)
    if rng.random() < 0.5:
        payload = rng.choice([rng.randrange(1048576), 1048575, 0])
        if rng.random() < 0.03:
            payload = rng.choice([1048576, rng.randrange(1 << bits), (1 << bits) - 1])
        return structure << bits | payload
    value = 1 << bits + 5 | structure << bits | rng.choice([rng.randrange(1 << bits), (1 << bits) - 1, 0])
    if rng.random() < 0.02:
        return rng.choice([value + (1 << bits + 6), 1 << bits + 6, (1 << 64) - 1, 1 << 63])
    return value


def records_case(seed, number):
    """(records to pack, room for the sheet)."""
    rng = random.Random(f"{seed}/records/{number}")
    count = rng.choice([0, 1, 1, 2, 3, 10, 40])
    records = [record(rng) for _ in range(count)]
    need = 4 + 7 * count
    return records, max(0, need + rng.choice([0, 0, 0, 1, 7, -1, -5, -need]))


def sheet_case(seed, number):
    """(sheet, room for the records)."""
    rng = random.Random(f"{seed}/sheet/{number}")
    count = rng.choice([0, 1, 1, 2, 3, 10, 40])
    width, payload, ends = rng.choice([(5, 34, 0), (7, 48, 2)])
    words = [record(rng, payload) % (1 << payload + 6) << ends for _ in range(count)]
    words = [word | rng.randrange(1, 4) if ends and rng.random() < 0.01 else word for word in words]
    told = count + (rng.choice([-1, 1, 1048576, -count]) if rng.random() < 0.15 else 0)
    sheet = bytes([width if rng.random() < 0.95 else rng.choice([0, 4, 5, 6, 7, 255])]) + max(0, told).to_bytes(3, "big")
    sheet += b"".join(word.to_bytes(width, "big") for word in words)
    way = rng.random()
    if way < 0.06:
        sheet = sheet[:rng.randrange(len(sheet) + 1)]
    elif way < 0.1:
        sheet += bytes(rng.randrange(1, 7))
    elif way < 0.16:
        at = rng.randrange(len(sheet))
        sheet = sheet[:at] + bytes([rng.randrange(256)]) + sheet[at + 1:]
    return sheet, max(0, count + rng.choice([0, 0, 0, 1, 7, -1, -count]))


# ------------------------------------------------------------------- the spread

def spread(seed, count, large):
    sys.path.append(str(pathlib.Path(__file__).resolve().parent.parent / "python"))
    import dzwonolin_oracle as oracle
    answers, aims, accepted = collections.Counter(), collections.Counter(), 0
    for number in range(count):
        one = case(seed, number, large)
        got = oracle.read(one.text, one.lengths, one.records_room, one.work_room).number
        answers[got] += 1
        if one.aim is not None:
            aims[one.aim, one.aim == got] += 1
    for number in sorted(answers):
        hit, missed = aims[number, True], aims[number, False]
        print(f"answer {number:2}: {answers[number]:7} texts; of {hit + missed} aimed at it, {hit} gave it")
    names, packed, unpacked = collections.Counter(), collections.Counter(), collections.Counter()
    for number in range(count // 10):
        one = case(seed, number, large)
        for dimension, index in questions(random.Random(f"{seed}/names/{number}"), one.lengths):
            names[oracle.map_name(one.text, one.lengths, dimension, index)[0]] += 1
        records, room = records_case(seed, number)
        packed[oracle.pack(records, room)[0]] += 1
        sheet, room = sheet_case(seed, number)
        unpacked[oracle.unpack(sheet, room)[0]] += 1
    print("map names:", dict(sorted(names.items())))
    print("pack:", dict(sorted(packed.items())), "unpack:", dict(sorted(unpacked.items())))


def main():
    options = argparse.ArgumentParser(description=__doc__, formatter_class=argparse.RawDescriptionHelpFormatter)
    options.add_argument("--count", type=int, default=5000)
    options.add_argument("--seed", type=int, default=1)
    options.add_argument("--large", action="store_true", help="also texts at the limit of length")
    options.add_argument("--write", metavar="DIR")
    given = options.parse_args()
    if not given.write:
        spread(given.seed, given.count, given.large)
        return
    folder = pathlib.Path(given.write)
    folder.mkdir(parents=True, exist_ok=True)
    for number in range(given.count):
        one = case(given.seed, number, given.large)
        (folder / f"{number:05}.xml").write_bytes(one.text)
        print(number, one.label, one.aim, ",".join(map(str, one.lengths)), one.records_room, one.work_room)


if __name__ == "__main__":
    main()
