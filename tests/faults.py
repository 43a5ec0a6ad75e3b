"""Tries the comparison: wrong readers, each with one known mistake, must be found out.

    python3 tests/faults.py [--count 6000] [--seed 1]
Each fault is put into a copy of the oracle behind the C interface. The last line is 'N found, M missed'.
"""
import argparse
import base64
import importlib
import pathlib
import re
import sys
import types

HERE = pathlib.Path(__file__).resolve().parent
sys.path[:0] = [str(HERE), str(HERE.parent / "python")]

import differential  # noqa: E402
import dzwonolin  # noqa: E402
import standin  # noqa: E402


def copy_of_oracle():
    """The oracle's four modules, loaded anew; that of GIFTI label files is its `gifti`."""
    names = ["dzwonolin_oracle_markup", "dzwonolin_oracle_rules", "dzwonolin_oracle_gifti", "dzwonolin_oracle"]
    kept = {name: sys.modules.pop(name) for name in names}
    copy = importlib.import_module("dzwonolin_oracle")
    copy.gifti = importlib.import_module("dzwonolin_oracle_gifti")
    sys.modules.update(kept)
    return copy


def only_refuses(o):
    o.accepted = lambda *given: (_ for _ in ()).throw(o.Refused(3))


def no_records(o):
    whole = o.accepted
    o.accepted = lambda *given: whole(*given)._replace(records=[])


def fills_in_text_order(o):
    o.map_records = lambda one: [r for m in one.models for r in o.model_records(m)]


def counts_by_sum(o):
    def check(one):
        for m in one.models:
            o.refuse_if(11, len(m.numbers) != m.count * (1 if m.type == "S" else 3))
    o.check_ranges = check


def decodes_twice(o):
    once = o.markup.decode
    o.markup.decode = lambda raw: once(once(raw))


def voxels_by_structure(o):
    o.location = lambda record: record


def first_model_only(o):
    whole = o.check_inside

    def check(one):
        rest, one.models = one.models, one.models[:1]
        whole(one)
        one.models = rest
    o.check_inside = check


def first_map_only(o):
    whole, maps_of, first = o.check_ranges, o.maps_of, []

    def remember(*given):
        maps = maps_of(*given)
        first[:] = [m for m in maps if m.kind == "brain"][:1]
        return maps
    o.maps_of = remember
    o.check_ranges = lambda one: whole(one) if one in first else None


def room_last(o):
    whole = o.accepted

    def accepted(text, lengths, records_room, work_room, limit):
        answer = whole(text, lengths, 1 << 30, 1 << 30, limit)
        if records_room < len(answer.records):
            raise o.Refused(13)
        return answer
    o.accepted = accepted


def signs_in_wholes(o):
    o.rules.WHOLE = re.compile(rb"[+-]?[0-9]{1,7}\Z")


def seven_before_six(o):
    whole = o.rules.check_elements

    def check(root):
        for matrix in root.children(b"Matrix"):
            for one in matrix.children(b"MatrixIndicesMap"):
                o.refuse_if(7, not o.rules.DIMENSIONS.match(one.value(b"AppliesToMatrixDimension") or b"0"))
        whole(root)
    o.rules.check_elements = check


def depth_seventeen(o):
    o.markup.DEPTH_LIMIT = 17


def long_names(o):
    o.markup.NAME_LIMIT = 65


def overlong_utf8(o):
    o.markup.check_characters = lambda text: None


def comment_parts_numbers(o):
    def add(element, raw, at):
        if b"]]>" in raw:
            raise o.markup.no_document("]]>")
        element.contents.append(bytearray(o.markup.decode(raw)))
    o.markup.add_run = add
    o.markup.Element.text = lambda self: b" ".join(c for c in self.contents if isinstance(c, bytes))


def power_dropped(o):
    whole = o.rules.decimal
    o.rules.decimal = lambda word: (whole(word)[0], 0)


def written_power_only(o):
    whole = o.rules.decimal
    o.rules.decimal = lambda word: (whole(word)[0], whole(word)[1] + len(word.lower().split(b"e")[0].partition(b".")[2]))


def limit_off_by_one(o):
    whole = o.rules.volume_dimensions
    o.rules.volume_dimensions = lambda word: whole(word.replace(b"65537", b"65536"))


def name_past_nine(o):
    whole = o.map_name_place
    o.map_name_place = lambda text, lengths, d, i: (18, 0, 0) if d >= len(lengths) else whole(text, lengths, d, i)


def names_from_one(o):
    whole = o.map_names

    def names(text, lengths, d, room):
        number, told = whole(text, lengths, d, room)
        return number, told[2:] + told[:2]
    o.map_names = names


def first_table_only(o):
    whole = o.label_table
    o.label_table = lambda text, lengths, dimension, index: whole(text, lengths, dimension, index and 0)


# ---- CDATA and DOCTYPE

def last_end(o):
    """The last ]]> ends CDATA, and not the first."""
    def add(element, text, at):
        end = text.rfind(b"]]>", at)
        if end < 0:
            raise o.markup.no_document("CDATA that does not end", at)
        o.markup.join_run(element, o.markup.line_ends(text[at + 9:end]))
        return end + 3
    o.markup.add_data = add


def references_in_data(o):
    whole = o.markup.add_data

    def add(element, text, at):
        end = whole(element, text, at)
        o.markup.check_references(text[at:end], at)
        return end
    o.markup.add_data = add


def data_parts_numbers(o):
    whole = o.markup.add_data

    def add(element, text, at):
        o.markup.join_run(element, b" ")
        return whole(element, text, at)
    o.markup.add_data = add


def two_doctypes(o):
    o.markup.DOCTYPE = re.compile(rb"(?:<!DOCTYPE[^\[\]<>]*>)+")


def subset_passes(o):
    o.markup.DOCTYPE = re.compile(rb"<!DOCTYPE[^<>]*>")


# ---- GIFTI label files

def coded_as_python_has_it(o):
    """Base64 without a look at the bits that are left over."""
    o.gifti.base64 = types.SimpleNamespace(b64decode=base64.b64decode, b64encode=lambda found: Same())


class Same(bytes):
    """Equal to anything."""
    def __ne__(self, other):
        return False


def letters_of_urls(o):
    whole = o.gifti.base64.b64decode
    o.gifti.coded = lambda element: whole(element.text().translate(bytes.maketrans(b"-_", b"+/"), o.gifti.BLANKS) + b"==")


def endian_exchanged(o):
    o.gifti.ENDIANS = {b"BigEndian": "<", b"LittleEndian": ">"}


def first_array_alone(o):
    whole = o.gifti.Labels.__init__

    def init(self, root):
        whole(self, root)
        for one in self.arrays[1:]:
            one.fits = lambda: True
    o.gifti.Labels.__init__ = init


def asked_array_zero(o):
    whole = o.gifti.accepted
    o.gifti.accepted = lambda text, array, room: whole(text, array and 0, room)


def unknown_key_passes(o):
    o.gifti.Labels.known = lambda self: Known(key for key, _ in self.table)


class Known(set):
    """Has every key."""
    def issuperset(self, keys):
        return True


def children_in_any_order(o):
    o.gifti.ORDER = types.SimpleNamespace(index=lambda name: 0)


def schema_attributes_pass(o):
    whole = o.rules.shape
    more = (b"xmlns:xsi", b"xsi:noNamespaceSchemaLocation")
    o.rules.shape = lambda *given, text=False, optional=(): whole(*given, text=text, optional=(*optional, *more))


def other_encoding_is_6(o):
    def check(array):
        if array.value(b"Encoding") not in o.gifti.READ[b"Encoding"]:
            raise o.Refused(6)
    whole = o.gifti.check_array
    o.gifti.check_array = lambda array: (whole(array), check(array))


ON_MARKUP = [last_end, references_in_data, data_parts_numbers, two_doctypes, subset_passes]
ON_LABELS = [coded_as_python_has_it, letters_of_urls, endian_exchanged, first_array_alone, asked_array_zero, unknown_key_passes,
             children_in_any_order, schema_attributes_pass, other_encoding_is_6]
FAULTS = [only_refuses, no_records, fills_in_text_order, counts_by_sum, decodes_twice, voxels_by_structure,
          first_model_only, first_map_only, room_last, signs_in_wholes, seven_before_six, depth_seventeen, long_names,
          overlong_utf8, comment_parts_numbers, power_dropped, written_power_only, limit_off_by_one, name_past_nine,
          names_from_one, first_table_only] + ON_MARKUP + ON_LABELS
# Shown by few texts: tried where there are so many.
RARE = {limit_off_by_one: 3000}


def found(fault, seed, count):
    """The number of the first text on which the fault shows, or None."""
    standin.oracle = copy_of_oracle()
    standin.gifti = standin.oracle.gifti
    fault(standin.oracle)
    standin.install(dzwonolin)
    run = differential.Comparison(0)
    for number in range(count):
        if fault in ON_LABELS:
            run.gifti_keys(seed, number)
        else:
            run.one(seed, number, False)
        if run.differ:
            return number
    return None


def main():
    options = argparse.ArgumentParser(description=__doc__, formatter_class=argparse.RawDescriptionHelpFormatter)
    options.add_argument("--count", type=int, default=6000)
    options.add_argument("--seed", type=int, default=1)
    given = options.parse_args()
    missed, tried = 0, [fault for fault in FAULTS if given.count >= RARE.get(fault, 0)]
    for fault in FAULTS:
        if fault not in tried:
            print(f"{fault.__name__}: not tried with under {RARE[fault]} texts")
            continue
        at = found(fault, given.seed, given.count)
        missed += at is None
        print(f"{fault.__name__}: " + ("MISSED" if at is None else f"found at text {at}"))
    print(f"{len(tried) - missed} found, {missed} missed")
    return 1 if missed else 0


if __name__ == "__main__":
    sys.exit(main())
