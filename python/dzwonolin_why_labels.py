"""Where a GIFTI label file breaks a rule, and what stands there: by the independent reading, which is tested and not proved.

`explained(text)` reads by dzwonolin_oracle_gifti, asks for the first array, and gives the number with the spots that it is about.
"""
from __future__ import annotations

import collections

import dzwonolin_oracle_gifti as gifti
from dzwonolin_oracle_markup import Refused
from dzwonolin_why import Reading, Spot, carried_spot, shortened, stops, twice_in


def root_spots(reading):
    root = reading.root
    if root.name != b"GIFTI":
        yield reading.spot(f"the root is {root.name.decode()}, and must be GIFTI", root)
    else:
        version = root.value(b"Version")
        words = "it has no Version" if version is None else f"Version is {shortened(version)}, and must be '1.0'"
        yield reading.spot(words, root, b"Version")


def count_spots(reading):
    file = gifti.Labels(reading.root)
    yield reading.spot(f"NumberOfDataArrays is {file.count}, and there are {len(file.arrays)}", reading.root, b"NumberOfDataArrays")


def key_spots(reading):
    yield from twice_in(reading, gifti.Labels(reading.root).table)


def length_spots(reading):
    for one in gifti.Labels(reading.root).arrays:
        if not one.fits():
            yield reading.spot(f"Dim0 is {one.length}, and {one.told}", one.element, b"Dim0")


def unknown_spots(reading):
    """Each key that no Label has, where it stands first in an array."""
    file = gifti.Labels(reading.root)
    for one in file.arrays:
        times = collections.Counter(one.keys)
        plain, data = one.element.value(b"Encoding") == gifti.PLAIN, one.element.child(b"Data")
        for key in times.keys() - file.known():
            place = one.keys.index(key)
            yield reading.spot(f"no Label has key {key}, which stands at place {place}, and {times[key]} times in all", data,
                               word=place if plain else None)


SPOTS = {4: root_spots, 9: count_spots, 24: key_spots, 30: length_spots, 31: unknown_spots}


def spots(text, refused):
    number = refused.number
    if number == 2:
        return [Spot(None, None, f"the text has {len(text)} bytes")]
    if number == 3:
        return [Spot(refused.place, None, stops(text, refused))]
    reading = Reading(text, [])
    return list(SPOTS[number](reading)) if number in SPOTS else [carried_spot(reading, refused)]


def explained(text: bytes):
    """(the number of the independent reading, the spots that it is about)."""
    try:
        gifti.accepted(text, 0, gifti.LENGTH_LIMIT)
    except Refused as refused:
        return refused.number, spots(text, refused)
    return 0, []
