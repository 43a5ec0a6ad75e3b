"""The proved library against the oracle, on texts and GIFTI label files from a seed, the paper's examples and real headers.

    python3 tests/differential.py --count 20000 --seed 1
    python3 tests/differential.py --seconds 60 --large --real
    python3 tests/differential.py --lister PATH --count 5000       the morning card's program instead of the library
    python3 tests/differential.py --outline PATH --count 5000      the program that shows a document
    python3 tests/differential.py --module oracle --count 500      tries this comparison itself

Compared: the number, the whole answer, the records, what is left as it was (past the stretches, past the answer, on
refusal, around every lent slice), and that the work space is zero; of the lister and the outline their whole output. The last line is
'N compared, M differ'.
"""
import argparse
import array as arrays
import collections
import ctypes
import pathlib
import random
import subprocess
import sys
import time

HERE = pathlib.Path(__file__).resolve().parent
sys.path[:0] = [str(HERE), str(HERE.parent / "python")]

import dzwonolin  # noqa: E402
import served  # noqa: E402
import gifti_texts  # noqa: E402
import dzwonolin_oracle as oracle  # noqa: E402
import dzwonolin_oracle_gifti as oracle_gifti  # noqa: E402
import dzwonolin_oracle_markup as oracle_markup  # noqa: E402
import paper  # noqa: E402
import real  # noqa: E402
import standin  # noqa: E402
import texts  # noqa: E402

GUARD = 3
ANSWER_ROOMS = [52, 52, 52, 52, 55, 64, 51, 31, 1, 0]


class Lent:
    """A lent slice with marked numbers (or bytes) in it and on both sides."""

    def __init__(self, rng, length, unit=ctypes.c_uint64):
        self.length = length
        size = ctypes.sizeof(unit)
        self.before = rng.randbytes((length + 2 * GUARD) * size)
        self.memory = (ctypes.c_ubyte * len(self.before)).from_buffer(bytearray(self.before))
        self.slice = (unit * length).from_buffer(self.memory, GUARD * size)
        self.entry = list(self.slice)
        self.edge = GUARD * size

    def holds(self, start):
        """The slice begins with `start` and is otherwise as it was, and so are its sides."""
        after = bytes(self.memory)
        inside = list(self.slice)
        return (inside[:len(start)] == list(start) and inside[len(start):] == self.entry[len(start):]
                and after[:self.edge] == self.before[:self.edge] and after[-self.edge:] == self.before[-self.edge:])


class Comparison:
    """Counts what was compared and what differed."""

    def __init__(self, show):
        self.compared = self.differ = 0
        self.show = show
        self.numbers = collections.Counter()

    def check(self, what, fine):
        self.compared += 1
        if not fine:
            self.differ += 1
            if self.differ <= self.show:
                print("differs:", what)

    def read(self, rng, name, text, lengths, records_room, work_room):
        """dz_read with marked slices, and the module's read; the oracle's answer."""
        wanted = oracle.read(text, lengths, records_room, work_room)
        self.numbers[wanted.number] += 1
        records, work = Lent(rng, records_room), Lent(rng, work_room)
        answer, lent = Lent(rng, rng.choice(ANSWER_ROOMS)), dzwonolin._numbers(lengths)
        copy = bytes(bytearray(text))
        got = dzwonolin.call_read(text, lent, records.slice, work.slice, answer.slice)
        row = standin.answer_numbers(wanted) if answer.length >= dzwonolin.ANSWER else []
        for part, fine in [(f"number {got}, wanted {wanted.number}", got == wanted.number), ("answer", answer.holds(row)),
                           ("records", records.holds(wanted.records)), ("work space", work.holds([0] * work_room)),
                           ("text", text == copy), ("lengths", list(lent) == list(lengths))]:
            if not fine:
                self.check(f"{name}: {part}", False)
                return wanted
        again = dzwonolin.read(text, lengths, records_room, work_room)
        self.check(f"{name}: read of the module", tuple(again) == tuple(wanted))
        return wanted

    def map_names(self, rng, name, text, lengths):
        for dimension, index in texts.questions(rng, lengths):
            wanted = oracle.map_name_place(text, lengths, dimension, index)
            self.numbers[18] += wanted[0] == 18
            part = Lent(rng, rng.choice([2, 2, 2, 3, 1, 0]))
            got = dzwonolin.call_map_name(text, dzwonolin._numbers(lengths), dimension, index, part.slice)
            fine = got == wanted[0] and part.holds(wanted[1:] if part.length >= 2 else [])
            number, taken = dzwonolin.map_name(text, lengths, dimension, index)
            fine = fine and (number, taken) == (wanted[0], text[wanted[1]:wanted[1] + wanted[2]])
            self.check(f"{name}: map name {dimension}, {index}: {got}, wanted {wanted[0]}", fine)
            if index < 2 ** 32:
                self.all_names(rng, name, text, lengths, dimension)

    def all_names(self, rng, name, text, lengths, dimension):
        """dz_map_names with marked slices, each of its names as dz_map_name tells it alone, and the module's map_names."""
        many = min(lengths[dimension], 4096) if dimension < len(lengths) else 1
        places, count = Lent(rng, max(0, 2 * many + rng.choice([0, 0, 1, 5, -1]))), Lent(rng, rng.choice([1, 1, 2, 0]))
        wanted, told = oracle.map_names(text, lengths, dimension, places.length)
        self.numbers[17] += wanted == 17
        size = dzwonolin._numbers(lengths)
        got = dzwonolin._library().dz_map_names(text, len(text), size, len(size), dimension, places.slice, places.length,
                                                count.slice, count.length)
        fine = got == wanted and places.holds(told) and count.holds([len(told) // 2][:count.length])
        names = dzwonolin.map_names(text, lengths, dimension)
        if told:
            fine = fine and names == (0, [text[at:at + long] for at, long in zip(told[::2], told[1::2])])
            alone = rng.randrange(len(told) // 2)
            fine = fine and names[1][alone] == dzwonolin.map_name(text, lengths, dimension, alone)[1]
        fine = fine and names[0] == (0 if wanted == 17 else wanted)
        self.check(f"{name}: all names of {dimension}: {got}, wanted {wanted}", fine)

    def labels(self, rng, name, text, lengths):
        """dz_label_keys and dz_label_name with marked slices, and the module's label_keys and label_name."""
        for dimension, index in texts.questions(rng, lengths):
            known = oracle.label_keys(text, lengths, dimension, index, 1 << 32)[1]
            self.label_keys(rng, name, text, lengths, dimension, index, max(0, len(known) + rng.choice([0, 0, 1, 5, -1])))
            for key in [rng.choice(known or [0]), rng.choice([0, -1, 41, 2 ** 31 - 1, -2 ** 31])]:
                wanted = oracle.label_name_place(text, lengths, dimension, index, key)
                part, size = Lent(rng, rng.choice([2, 2, 3, 1, 0])), dzwonolin._numbers(lengths)
                got = dzwonolin._library().dz_label_name(text, len(text), size, len(size), dimension, index, key, part.slice, part.length)
                fine = got == wanted[0] and part.holds(wanted[1:] if part.length >= 2 else [])
                told = dzwonolin.label_name(text, lengths, dimension, index, key)
                fine = fine and told == (wanted[0], text[wanted[1]:wanted[1] + wanted[2]])
                self.check(f"{name}: label name {dimension}, {index}, {key}: {got}, wanted {wanted[0]}", fine)

    def label_keys(self, rng, name, text, lengths, dimension, index, room):
        wanted, told = oracle.label_keys(text, lengths, dimension, index, room)
        keys, count = Lent(rng, room, ctypes.c_int32), Lent(rng, rng.choice([1, 1, 2, 0]))
        got = dzwonolin.call_label_keys(text, dzwonolin._numbers(lengths), dimension, index, keys.slice, count.slice)
        fine = got == wanted and keys.holds(told) and count.holds([len(told)][:count.length])
        if wanted != 17:
            fine = fine and dzwonolin.label_keys(text, lengths, dimension, index) == (wanted, told)
        self.check(f"{name}: label keys {dimension}, {index}: {got}, wanted {wanted}", fine)

    def gifti_keys(self, seed, number):
        """A GIFTI label file from the seed."""
        case = gifti_texts.case(seed, number)
        name = f"seed {seed} GIFTI file {number} ({case.label})"
        self.array_keys(random.Random(f"{seed}/compare gifti/{number}"), name, case.text, case.array, case.room)

    def array_keys(self, rng, name, text, array, room):
        """dz_gifti_keys with marked slices, and the module's gifti_keys; the oracle's number."""
        wanted, told = oracle_gifti.gifti_keys(text, array, room)
        self.numbers[wanted] += wanted > 0
        keys, count = Lent(rng, room, ctypes.c_int32), Lent(rng, rng.choice([1, 1, 2, 0]))
        with dzwonolin._Lent(text) as lent:
            got = dzwonolin.call_gifti_keys(lent, array, keys.slice, count.slice)
        fine = got == wanted and keys.holds(told) and count.holds([len(told)][:count.length])
        if wanted != 17:
            fine = fine and dzwonolin.gifti_keys(text, array) == (wanted, arrays.array("i", told))
        self.check(f"{name}: {got}, wanted {wanted}", fine)
        return wanted

    def find(self, rng, name, records):
        asked = [rng.getrandbits(64), 0] + ([rng.choice(records), records[0], records[-1], records[-1] + 1] if records else [])
        for number in asked:
            wanted = oracle.find(records, number)
            self.numbers[19] += wanted[0] == 19
            lent, place = dzwonolin._numbers(records), Lent(rng, rng.choice([1, 1, 2, 0]))
            got = dzwonolin._library().dz_find(lent, len(lent), number, place.slice, place.length)
            fine = got == wanted[0] and place.holds([wanted[1]][:place.length]) and list(lent) == list(records)
            self.check(f"{name}: find {number}", fine and dzwonolin.find(records, number) == wanted)

    def pack(self, rng, name, records, room):
        wanted, sheet_wanted = oracle.pack(records, room)
        sheet, count = Lent(rng, room, ctypes.c_ubyte), Lent(rng, rng.choice([1, 1, 2, 0]))
        lent = dzwonolin._numbers(records)
        got = dzwonolin._library().dz_pack(lent, len(lent), sheet.slice, room, count.slice, count.length)
        fine = got == wanted and sheet.holds(sheet_wanted) and count.holds([len(sheet_wanted)][:count.length])
        fine = fine and dzwonolin.pack(records) == oracle.pack(records) and list(lent) == records
        self.numbers[got] += got > 0
        self.check(f"{name}: pack: {got}, wanted {wanted}", fine)

    def unpack(self, rng, name, sheet, room):
        wanted, records_wanted = oracle.unpack(sheet, room)
        records, count = Lent(rng, room), Lent(rng, rng.choice([1, 1, 2, 0]))
        got = dzwonolin._library().dz_unpack(sheet, len(sheet), records.slice, room, count.slice, count.length)
        fine = got == wanted and records.holds(records_wanted) and count.holds([len(records_wanted)][:count.length])
        fine = fine and dzwonolin.unpack(sheet) == oracle.unpack(sheet)
        self.numbers[got] += got > 0
        self.check(f"{name}: unpack: {got}, wanted {wanted}", fine)

    # ------------------------------------------------------------ the runs

    def paper(self):
        rng = random.Random(0)
        for name, text, lengths, records, work, number in paper.rows():
            wanted = self.read(rng, name, text, lengths, records, work)
            self.check(f"{name}: the paper says {number}", wanted.number == number)
        self.check("P2", dzwonolin.pack(dzwonolin.read(paper.CASE_A, [2, 3]).records) == (0, paper.SHEET_A))
        card = "".join(line + "\n" for line in dzwonolin.card(dzwonolin.read(paper.CASE_A, [2, 3])))
        self.check("card of A", card.encode() == paper.CARD_A)

    def one(self, seed, number, large):
        rng = random.Random(f"{seed}/compare/{number}")
        case = texts.case(seed, number, large)
        name = f"seed {seed} text {number} ({case.label})"
        wanted = self.read(rng, name, case.text, case.lengths, case.records_room, case.work_room)
        if number % 4 == 0:
            self.map_names(rng, name, case.text, case.lengths)
        if number % 8 == 0 or number % 2 == 0 and b"LabelTable" in case.text:
            self.labels(rng, name, case.text, case.lengths)
        if number % 8 == 0 or wanted.records and len(wanted.records) < 5000:
            self.find(rng, name, wanted.records)
        if wanted.records and len(wanted.records) < 5000:
            self.pack(rng, name, wanted.records, 4 + 7 * len(wanted.records))
        if number % 2 == 0:
            self.pack(rng, name, *texts.records_case(seed, number))
            self.unpack(rng, name, *texts.sheet_case(seed, number))

    def limit_cards(self, lister):
        for name, given, begins in texts.limit_cards():
            self.check(f"card of {name}: the paper says {begins!r}", oracle.lister(given).startswith(begins))
            self.card(lister, f"card of {name}", given)

    def card(self, lister, name, given):
        """The lister's whole output on a whole input."""
        wanted = oracle.lister(given)
        got = subprocess.run(lister, input=given, capture_output=True, timeout=60).stdout
        if wanted.startswith(b"refused"):
            self.numbers[int(wanted.split()[1])] += 1
        else:
            self.numbers[0] += 1
        self.check(f"{name}: {got[:40]!r}, wanted {wanted[:40]!r}", got == wanted)

    def outline(self, program, name, text):
        """The lines of the document that a text writes."""
        wanted = oracle_markup.outline(text)
        got = subprocess.run(program, input=text, capture_output=True, timeout=60).stdout
        self.numbers[int(wanted.split()[1]) if wanted.startswith(b"refused") else 0] += 1
        self.check(f"{name}: {got[:40]!r}, wanted {wanted[:40]!r}", got == wanted)

    def real(self, headers):
        for name, text, lengths in headers:
            rng = random.Random(name)
            wanted = self.read(rng, name, text, lengths, sum(lengths), max(lengths))
            self.map_names(rng, name, text, lengths)
            print(f"{name}: {len(text)} bytes, number {wanted.number}, {len(wanted.records)} records")
            if wanted.records:
                self.pack(rng, name, wanted.records, 4 + 7 * len(wanted.records))
                self.read(rng, name + " short", text, lengths, sum(lengths), len(wanted.records) - 1)


def main():
    options = argparse.ArgumentParser(description=__doc__, formatter_class=argparse.RawDescriptionHelpFormatter)
    options.add_argument("--count", type=int, default=None, help="texts to compare (5000 where no --seconds are given)")
    options.add_argument("--seed", type=int, default=1)
    options.add_argument("--first", type=int, default=0, help="number of the first text")
    options.add_argument("--seconds", type=float, default=None, help="stop after so long")
    options.add_argument("--large", action="store_true", help="also texts at the limit of length, and long lists")
    options.add_argument("--real", action="store_true", help="also the real headers")
    options.add_argument("--lister", metavar="PATH", help="compare this program's cards, and nothing else")
    options.add_argument("--outline", metavar="PATH", help="compare what this program shows of documents, and nothing else")
    options.add_argument("--module", choices=["library", "oracle"], default="library")
    options.add_argument("--show", type=int, default=20, help="differences to print")
    given = options.parse_args()
    if given.module == "oracle":
        standin.install(dzwonolin)
    elif not (given.lister or given.outline):
        served.ready(dzwonolin)
    count = given.count if given.count is not None else 5000 if given.seconds is None else 1 << 40
    end = time.monotonic() + given.seconds if given.seconds is not None else float("inf")
    run = Comparison(given.show)
    lister = [given.lister] if given.lister else None
    shows = [given.outline] if given.outline else None
    if lister:
        run.limit_cards(lister)
    elif not shows:
        run.paper()
    if given.real and not (lister or shows):
        run.real(real.headers_or_skipped())
    for number in range(given.first, given.first + count):
        if time.monotonic() > end:
            break
        if lister:
            run.card(lister, f"seed {given.seed} card {number}", texts.card_case(given.seed, number))
        elif shows:
            run.outline(shows, f"seed {given.seed} text {number}", texts.case(given.seed, number).text)
            run.outline(shows, f"seed {given.seed} line ends {number}", texts.line_ends(given.seed, number))
            run.outline(shows, f"seed {given.seed} marked {number}", texts.marked(given.seed, number))
        else:
            run.one(given.seed, number, given.large)
            run.gifti_keys(given.seed, number)
    print("numbers:", ", ".join(f"{n}: {k}" for n, k in sorted(run.numbers.items())))
    print(f"{run.compared} compared, {run.differ} differ")
    return 1 if run.differ else 0


if __name__ == "__main__":
    sys.exit(main())
