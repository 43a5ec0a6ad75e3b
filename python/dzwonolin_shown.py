"""What the command `dzwonolin` prints of a file, command by command.

Each is a class: what is printed of an accepted file as lines, as rows of a table (--tsv) and as fields of an object (--json).
"""
from __future__ import annotations

import dzwonolin


def shown(words: str) -> str:
    """Words on one line: a tab, a line feed and a carriage return as they are written in programs."""
    return words.replace("\t", "\\t").replace("\n", "\\n").replace("\r", "\\r")


def columns(rows) -> list[str]:
    """Rows as lines with their columns one below the other, numbers to the right."""
    rows = [[str(cell) for cell in row] for row in rows]
    widths = [max(map(len, column)) for column in zip(*rows)]
    return ["  ".join(cell.rjust(width) if cell.lstrip("-").isdigit() else cell.ljust(width) for cell, width in zip(row, widths)).rstrip()
            for row in rows]


def dimension_fields(one) -> dict:
    fields = {"kind": one.kind, "length": one.length}
    if one.kind == "series":
        fields.update(start=list(one.series_start), step=list(one.series_step), exponent=one.exponent, unit=dzwonolin.UNITS[one.unit])
    return fields


class Command:
    """What every command has; `many` is whether it takes several files and folders."""
    many, heads = True, ()

    def arguments(self, parser):
        pass

    def lengths(self, parser, kind):
        """The option for the text of a header, where the command takes one."""
        parser.add_argument("--lengths", type=kind, metavar="L,L", help="FILE is a header text, for a matrix of these lengths")

    def is_text(self, given) -> bool:
        """Whether FILE is a text, and not a NIfTI-2 file."""
        return given.lengths is not None

    def opened(self, file, given):
        return dzwonolin.open(file, given.lengths)

    def wrong_use(self, given) -> str:
        """What is wrong with the arguments, if they do not go together."""
        return ""

    def refused(self, name, refused, given):
        """What is printed of a refused file on standard output, and whether it is told on standard error too."""
        return [], True

    def differs(self, file, given) -> bool:
        return False


class Counts(Command):
    """the models with their counts, then the dimensions"""
    example = "dzwonolin counts brain.dscalar.nii"
    heads = ("dimension", "type", "structure", "count", "first")

    def plain(self, file, given):
        counts = file.counts()
        for dimension in file.brains():
            if len(file.brains()) > 1:
                yield f"brain map of dimension {dimension}"
            yield from columns([one[1:] for one in counts if one.dimension == dimension])
        yield from (f"dimension {number} {one.kind} {one.length}" for number, one in enumerate(file.dimensions))

    def rows(self, file, given):
        return file.counts()

    def fields(self, file, given):
        return {"models": [one._asdict() for one in file.counts()], "dimensions": [dimension_fields(d) for d in file.dimensions]}


class Listed(Command):
    """the morning card: a line for each dimension and each location"""
    example = "dzwonolin list brain.dscalar.nii"
    many, heads = False, ("stretch", "index", "type", "structure", "i", "j", "k")

    def plain(self, file, given):
        return dzwonolin.card(file)

    def rows(self, file, given):
        for start, length in dzwonolin._stretches(file):
            for index in range(length):
                yield (start, index, *dzwonolin.unfold(file.records[start + index]))

    def fields(self, file, given):
        return {"dimensions": [dimension_fields(d) for d in file.dimensions], "records": [row[1:] for row in self.rows(file, given)]}

    def refused(self, name, refused, given):
        return [f"refused {refused.number}"], True


class Card(Listed):
    """the morning card, and behind it a line for each model"""
    example = "dzwonolin card brain.dscalar.nii"

    def plain(self, file, given):
        yield from dzwonolin.card(file)
        yield from dzwonolin.models(file)


class Names(Command):
    """the map names, as written"""
    example = "dzwonolin names brain.dscalar.nii 0"
    many, heads = False, ("dimension", "index", "name")

    def arguments(self, parser):
        parser.add_argument("dimension", metavar="DIMENSION", type=int, nargs="?", help="of this dimension alone, from 0")

    def asked(self, file, given):
        """The dimensions that are asked for; a bad one is the library's to refuse."""
        if given.dimension is not None and given.dimension not in file.named():
            raise dzwonolin.Refused(18, file.name)
        return file.named() if given.dimension is None else [given.dimension]

    def rows(self, file, given):
        for dimension in self.asked(file, given):
            for index, name in enumerate(file.names(dimension)):
                yield dimension, index, name

    def plain(self, file, given):
        alone = len(self.asked(file, given)) == 1
        return (f"{'' if alone else f'{dimension} '}{index} {shown(name)}" for dimension, index, name in self.rows(file, given))

    def fields(self, file, given):
        return {"names": [{"dimension": d, "names": file.names(d)} for d in self.asked(file, given)]}


class Check(Command):
    """a line for each file: ok, or refused with its number and words"""
    example = "dzwonolin check -r incoming/"
    heads = ("number", "reason")

    def plain(self, file, given):
        return [f"{file.name}: ok"]

    def rows(self, file, given):
        return [(0, "ok")]

    def fields(self, file, given):
        return {}

    def refused(self, name, refused, given):
        return [f"{name}: refused {refused.number}: {refused.reason}"], False


class Wall(Command):
    """what a known file is, to pin up and keep; and whether another is the same"""
    example = "dzwonolin wall brain.dscalar.nii > centre.wall; dzwonolin wall --against centre.wall today.dscalar.nii"
    heads = ("fact",)

    def arguments(self, parser):
        parser.add_argument("--against", metavar="WALL", help="say what is other than on this wall, a line each")
        parser.add_argument("--page", action="store_true", help="the wall as a page to print: HTML, A4")
        parser.add_argument("--sheet", action="store_true", help="keep the locations too, so that each index that moved is named")

    def wrong_use(self, given):
        if given.page and (given.against or given.json or given.tsv or given.sheet):
            return "--page is a form of its own: it goes with no --against, --json, --tsv or --sheet"
        if given.sheet and given.against:
            return "--sheet makes a wall, and --against asks one: a wall with a sheet is asked as any other"
        alone = not (given.against or given.json or given.tsv)
        return "a wall is of one file; several go with --against" if given.several and alone else ""

    def said(self, file, given):
        """The facts, or what is other than on the wall; worked out once for a file."""
        import dzwonolin_wall as wall
        if not hasattr(file, "said"):
            file.said = wall.differences(wall.read(given.against), file) if given.against else wall.facts(file, given.sheet)
        return file.said

    def plain(self, file, given):
        if given.page:
            import dzwonolin_page
            return dzwonolin_page.page(file)
        if not given.against:
            import dzwonolin_wall
            return dzwonolin_wall.lines(file, given.sheet)
        name = f"{file.name}: " if given.several else ""
        return [name + line for line in self.said(file, given)] or [name + "ok"]

    def rows(self, file, given):
        return ([line] for line in self.said(file, given))

    def fields(self, file, given):
        found = self.said(file, given)
        return {"same": not found, "differences": found} if given.against else {"facts": found}

    def differs(self, file, given):
        return bool(given.against and self.said(file, given))


class Labels(Command):
    """the keys of a GIFTI label file, and how many places have each"""
    example = "dzwonolin labels lh.aparc.label.gii; dzwonolin labels lh.aparc.label.gii 0"
    many, heads = False, ("array", "key", "count")

    def arguments(self, parser):
        parser.add_argument("array", metavar="ARRAY", type=int, nargs="?", help="of this array alone, from 0")

    def lengths(self, parser, kind):
        parser.set_defaults(lengths=None)

    def is_text(self, given):
        return True

    def opened(self, file, given):
        from dzwonolin_labels import GiftiLabels
        no_such = given.array is not None and not 0 <= given.array < 1 << 64
        return GiftiLabels(file, (1 << 64) - 1 if no_such else given.array)

    def rows(self, file, given):
        return file.counts()

    def plain(self, file, given):
        for array in file.keys:
            if len(file.keys) > 1:
                yield f"array {array}"
            yield from columns([one[1:] for one in file.counts() if one.array == array])

    def fields(self, file, given):
        told = {array: [{"key": one.key, "count": one.count} for one in file.counts() if one.array == array] for array in file.keys}
        return {"arrays": [{"array": array, "length": len(file.keys[array]), "keys": keys} for array, keys in told.items()]}


COMMANDS = {"counts": Counts(), "card": Card(), "list": Listed(), "names": Names(), "check": Check(), "wall": Wall(), "labels": Labels()}
