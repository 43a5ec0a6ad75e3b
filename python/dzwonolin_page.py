"""The wall as a page to print and pin up: one HTML file without scripts, for A4.

It draws what the header says and no surface: a strip of the brain map's index, from 0 to its end, coloured by structure.
"""
from __future__ import annotations

import html
import os

import dzwonolin
import dzwonolin_wall as wall

STYLE = """
@page { size: A4; margin: 11mm 14mm }
body { font: 9.5pt/1.25 sans-serif; color: #111; max-width: 182mm; margin: auto }
body { print-color-adjust: exact; -webkit-print-color-adjust: exact }
h1 { font-size: 15pt; margin: 0 0 1mm; overflow-wrap: anywhere } h2 { font-size: 11pt; margin: 5mm 0 1mm }
table { border-collapse: collapse; width: 100%; font-size: 8.5pt }
td, th { padding: .2mm 2mm; text-align: left; border-bottom: .2mm solid #ccc }
td.n, th.n { text-align: right; font-variant-numeric: tabular-nums } code { font-size: 8pt }
.swatch { display: inline-block; width: 3mm; height: 3mm; border: .2mm solid #333 }
svg { display: block; width: 100%; height: auto } .label { font: 2.7px sans-serif }
ol.mornings { list-style: none; padding: 0; margin: 0; display: flex; flex-wrap: wrap; gap: 1.2mm }
ol.mornings li { width: 8.5mm; height: 8.5mm; border: .3mm solid #333; font-size: 6pt; padding: .4mm; box-sizing: border-box }
p { margin: 1mm 0 }
"""
# of the strip, in units of which the page is 182 wide: a name takes SLOT of its width, and a letter LETTER of its height
WIDTH, TOP, HEIGHT, GAP, SLOT, LETTER = 182, 1, 9, 8, 4.2, 1.75


def colour(structure: str) -> str:
    """One hue for a pair, the left darker than the right."""
    plain = structure.removesuffix("_LEFT").removesuffix("_RIGHT")
    plains = sorted({name.removesuffix("_LEFT").removesuffix("_RIGHT") for name in dzwonolin.STRUCTURES})
    light = 45 if structure.endswith("_LEFT") else 70 if structure.endswith("_RIGHT") else 58
    return f"hsl({plains.index(plain) * 137 % 360} 65% {light}%)"


def slots(middles: list, step: float) -> list[float]:
    """Where the names stand: each below the middle of its part, or as near as leaves a step between two."""
    found = []
    for middle in middles:
        found.append(max(middle, found[-1] + step if found else step / 2))
    last = WIDTH - step / 2
    for place in reversed(range(len(found))):
        found[place] = min(found[place], last)
        last = found[place] - step
    return found


def strip(models: list, length: int) -> list[str]:
    """The strip: a part for each model, as wide as its count on a scale from 0 to the map's length, with names and first indices."""
    below = TOP + HEIGHT + GAP
    names = [f"{m.structure} {m.first}" for m in models]
    lines = [f'<svg class="strip" viewBox="0 0 {WIDTH} {below + LETTER * max(map(len, names)) + 2:.0f}" role="img" '
             f'aria-label="the index from 0 to {length}">',
             f'<svg x="0" y="{TOP}" width="{WIDTH}" height="{HEIGHT}" viewBox="0 0 {length} 1" preserveAspectRatio="none">']
    lines += [f'<rect class="part" x="{m.first}" y="0" width="{m.count}" height="1" fill="{colour(m.structure)}">'
              f"<title>{m.structure} {m.count} from {m.first}</title></rect>" for m in models]
    lines.append("</svg>")
    middles = [(m.first + m.count / 2) * WIDTH / length for m in models]
    for name, middle, slot in zip(names, middles, slots(middles, min(SLOT, WIDTH / len(models)))):
        lines.append(f'<path d="M{middle:.2f} {TOP + HEIGHT} L{slot:.2f} {below - 1}" fill="none" stroke="#555" stroke-width=".2"/>'
                     f'<text class="label" transform="translate({slot - 1:.2f} {below}) rotate(90)">{name}</text>')
    return [*lines, "</svg>"]


def table(models: list):
    yield "<table><tr><th></th><th>type</th><th>structure</th><th class=n>count</th><th class=n>first index</th><th>digest</th></tr>"
    for m in models:
        kind = "surface" if m.type == "S" else "voxels"
        yield (f'<tr><td><span class="swatch" style="background:{colour(m.structure)}"></span></td><td>{kind}</td><td>{m.structure}</td>'
               f"<td class=n>{m.count}</td><td class=n>{m.first}</td><td><code>{m.digest[:8]}</code></td></tr>")
    yield "</table>"


def names(file):
    for dimension in file.named():
        found = file.names(dimension)
        told = ", ".join(html.escape(name) for name in found[:12]) + (f" and {len(found) - 12} more" if len(found) > 12 else "")
        yield f"<p>Names along dimension {dimension}: {told}</p>"


def page(file):
    """The lines of the page."""
    title = html.escape(os.path.basename(file.name), quote=True)
    yield '<!DOCTYPE html><html lang="en"><head><meta charset="utf-8">'
    yield f"<title>{title}</title><style>{STYLE}</style></head><body><h1>{title}</h1>"
    for number in range(len(file.dimensions)):
        yield f"<p>Dimension {number}: {wall.dimension_words(file, number)}</p>"
    yield from names(file)
    every = wall.models(file)
    for dimension in file.brains():
        models, length = [m for m in every if m.dimension == dimension], file.dimensions[dimension].length
        yield f"<h2>The brain map of dimension {dimension}: index 0 to {length - 1}</h2>"
        yield from strip(models, length)
        yield from table(models)
    yield "<h2>Looked at this morning</h2><ol class=mornings>" + "".join(f"<li>{day}</li>" for day in range(1, 32)) + "</ol>"
    yield (f"<p>Digest: the first letters of the SHA-256 of the model's lines on the morning card (dzwonolin {dzwonolin.__version__}). "
           "Whether a file is still this one: <code>dzwonolin wall --against</code>.</p></body></html>")
