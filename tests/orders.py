"""The order of models does not matter (W11): the library on texts from a seed, each beside one of the same document in which the models
of each map stand in another order.

    python3 tests/orders.py [--count N] [--seed S]

The number, the whole answer, the records, and the short list of each stretch must be the same of both. The stored pairs are tried too,
where they lie beside the checkout. The last line says of how many pairs the order was changed, and how many differ; the exit status is 1
if one does, or if no accepted text was among those changed.
"""
import argparse
import json
import pathlib
import random
import sys

ROOT = pathlib.Path(__file__).resolve().parent.parent
sys.path[:0] = [str(ROOT / "tests"), str(ROOT / "python")]

import documents  # noqa: E402
import dzwonolin  # noqa: E402
import served  # noqa: E402
import texts  # noqa: E402

STORED = ROOT.parent / "shared" / "cases" / "w11.jsonl"


def turn(rng, root):
    """The models of each map in another order, each kept as it is, what stands between them in its place; whether some moved."""
    moved = False
    for one in root.all("MatrixIndicesMap"):
        places = [n for n, thing in enumerate(one.contents) if isinstance(thing, documents.Node) and thing.name == "BrainModel"]
        models = [one.contents[n] for n in places]
        rng.shuffle(models)
        for n, model in zip(places, models):
            moved = moved or one.contents[n] is not model
            one.contents[n] = model
    return moved


def pair(seed, number):
    """A name, two texts of one document but for the order of its models, the lengths and rooms; nothing where no model moved."""
    rng = random.Random(f"{seed}/orders/{number}")
    doc = documents.Document(rng, texts.size_of(rng, False))
    room = texts.rooms(rng, doc, rng.random() < 0.1)
    if rng.random() < 0.5:
        texts.spoil_document(rng, doc)
    freedom = rng.choice([0, 0, 0.02, 0.1])
    first = documents.Style(rng, freedom).write(doc.root)
    if not turn(rng, doc.root):
        return None
    return f"seed {seed} pair {number}", first, documents.Style(rng, freedom).write(doc.root), list(doc.lengths), *room


def stored():
    """The stored pairs, their names ending in _a and _b."""
    cases = {case["name"]: case["in"].encode("latin-1") for case in map(json.loads, STORED.open(encoding="utf-8"))}
    for name in sorted(name[:-2] for name in cases if name.endswith("_a")):
        (line, first), (_, second) = (cases[name + end].split(b"\n", 1) for end in ("_a", "_b"))
        yield name, first, second, [int(word) for word in line.split(b",")], 4096, 4096


def told(text, lengths, records, work):
    """The answer with its records, and the short list of each stretch."""
    answer = dzwonolin.read(text, lengths, records, work)
    stretches = [answer.records[one.start:one.start + one.length] for one in answer.dimensions]
    return tuple(answer), [dzwonolin.model_list(stretch, 64) for stretch in stretches]


def main():
    options = argparse.ArgumentParser(description=__doc__, formatter_class=argparse.RawDescriptionHelpFormatter)
    options.add_argument("--count", type=int, default=1500, help="documents to make")
    options.add_argument("--seed", type=int, default=1)
    given = options.parse_args()
    served.ready(dzwonolin)
    pairs = [pair(given.seed, number) for number in range(given.count)] + (list(stored()) if STORED.exists() else [])
    tried = accepted = differ = 0
    for name, first, second, *lent in filter(None, pairs):
        one, other = told(first, *lent), told(second, *lent)
        tried, accepted = tried + 1, accepted + (one[0][0] == 0)
        if one != other:
            differ += 1
            print(f"{name}: {one[0][0]} and {other[0][0]}, or what was read is not the same")
    print(f"{tried} pairs in another order, {accepted} of them accepted, {differ} differ")
    return 1 if differ or not accepted else 0


if __name__ == "__main__":
    raise SystemExit(main())
