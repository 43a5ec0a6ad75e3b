"""The markup grammar of the paper: from bytes to the one document they write.

A strict reader of its own; no XML library is used. Refusal 3 where no document writes the bytes.
"""
import re


class Refused(Exception):
    """Carries the number of refusal and, where they are known, words on it and what it is about: a place of the text,
    an element, the name of an attribute of it, or which word of its text."""

    def __init__(self, number, why="", place=None, element=None, attribute=None, word=None):
        super().__init__(number, why)
        self.number, self.why, self.place = number, why, place
        self.element, self.attribute, self.word = element, attribute, word


BLANKS = b" \t\n\r"
BLANK = rb"[ \t\n\r]"
NAME = rb"[A-Za-z_][A-Za-z0-9_\-.:]*"
VALUE = rb"(?:\"[^\"<]*\"|'[^'<]*')"
START_TAG = re.compile(
    rb"<(?P<name>%b)(?P<attributes>(?:%b+%b%b*=%b*%b)*)%b*(?P<empty>/?)>"
    % (NAME, BLANK, NAME, BLANK, BLANK, VALUE, BLANK))
ATTRIBUTE = re.compile(
    rb"%b+(?P<name>%b)%b*=%b*(?P<value>%b)" % (BLANK, NAME, BLANK, BLANK, VALUE))
END_TAG = re.compile(rb"</(?P<name>%b)%b*>" % (NAME, BLANK))
DECLARATION = re.compile(
    rb"<\?xml%b+version%b*=%b*(?:\"1\.0\"|'1\.0')"
    rb"(?:%b+encoding%b*=%b*(?:\"UTF-8\"|'UTF-8'))?%b*\?>" % ((BLANK,) * 7))
DOCTYPE = re.compile(rb"<!DOCTYPE[^\[\]<>]*>")
DATA, DATA_END = b"<![CDATA[", b"]]>"
REFERENCE = re.compile(rb"&(amp|lt|gt|quot|apos);")
REFERENCES = {b"amp": b"&", b"lt": b"<", b"gt": b">", b"quot": b'"', b"apos": b"'"}
LONE_AMPERSAND = re.compile(rb"&(?!(?:amp|lt|gt|quot|apos);)")
FORBIDDEN = re.compile(rb"[\x00-\x08\x0b\x0c\x0e-\x1f]|\xef\xbf[\xbe\xbf]")
SPACED = bytes.maketrans(b"\t\n", b"  ")
LINE_END = re.compile(rb"\r\n?")
NAME_LIMIT = 64
ATTRIBUTE_LIMIT = 16
DEPTH_LIMIT = 16
OUTLINE_LIMIT = 32768


class Said(bytes):
    """The value of an attribute, which knows whose it is."""

    def __new__(cls, value, element, attribute):
        said = super().__new__(cls, value)
        said.element, said.attribute = element, attribute
        return said


class Element:
    """A name, attributes in order, contents in order (elements, and runs of
    decoded characters as bytes), and where its contents stand in the text."""

    __slots__ = ("name", "attributes", "contents", "begin", "end")

    def __init__(self, name, attributes, begin):
        self.name = name
        self.attributes = attributes
        self.contents = []
        self.begin = self.end = begin

    def children(self, name=None):
        return [c for c in self.contents
                if isinstance(c, Element) and (name is None or c.name == name)]

    def child(self, name):
        return self.children(name)[0]

    def text(self):
        return b"".join(c for c in self.contents if isinstance(c, bytes))

    def value(self, name):
        for key, value in self.attributes:
            if key == name:
                return Said(value, self, name)
        return None


def no_document(why, place=None):
    return Refused(3, why, place)


def check_references(raw, at):
    """No & stands alone in the characters that are written at a place."""
    alone = LONE_AMPERSAND.search(raw)
    if alone:
        raise no_document("a lone &", at + alone.start())


def decode(raw):
    """Characters as written, to characters meant: each reference once."""
    if b"&" not in raw:
        return raw
    if LONE_AMPERSAND.search(raw):
        raise no_document("a lone &")
    return REFERENCE.sub(lambda m: REFERENCES[m.group(1)], raw)


def line_ends(raw):
    """A carriage return is a line feed, and so is one with a line feed right behind it (XML 1.0, 2.11)."""
    return LINE_END.sub(b"\n", raw)


def check_characters(text):
    """All of a document is UTF-8 of legal characters, markup and comments too."""
    try:
        text.decode("utf-8", "strict")
    except UnicodeDecodeError as wrong:
        raise no_document("not UTF-8", wrong.start) from None
    never = FORBIDDEN.search(text)
    if never:
        raise no_document("a character that is never allowed", never.start())


def comment_end(text, at):
    """The place after the comment that begins at `at`."""
    dashes = text.find(b"--", at + 4)
    if dashes < 0 or text[dashes + 2:dashes + 3] != b">":
        raise no_document("a comment that does not end well", at)
    return dashes + 3


def skip_aside(text, at):
    """Past blanks and comments, before and after the root."""
    while True:
        while at < len(text) and text[at] in BLANKS:
            at += 1
        if not text.startswith(b"<!--", at):
            return at
        at = comment_end(text, at)


def start_tag(text, at):
    """The element whose start tag stands at `at`, whether it is empty, and the place after."""
    tag = START_TAG.match(text, at)
    if not tag or len(tag["name"]) > NAME_LIMIT:
        raise no_document("not a start tag", at)
    attributes = []
    for one in ATTRIBUTE.finditer(tag["attributes"]):
        if len(one["name"]) > NAME_LIMIT:
            raise no_document("a name too long", at)
        value = one["value"][1:-1]
        check_references(value, tag.start("attributes") + one.start("value") + 1)
        attributes.append((one["name"], decode(line_ends(value).translate(SPACED))))
    if len(attributes) > ATTRIBUTE_LIMIT:
        raise no_document("too many attributes", at)
    if len({name for name, _ in attributes}) < len(attributes):
        raise no_document("an attribute twice", at)
    return Element(tag["name"], attributes, tag.end()), bool(tag["empty"]), tag.end()


def add_run(element, raw, at):
    """A stretch of text, at a place."""
    if DATA_END in raw:
        raise no_document("]]> in text", at + raw.index(DATA_END))
    check_references(raw, at)
    join_run(element, decode(line_ends(raw)))


def add_data(element, text, at):
    """CDATA that begins at a place: its characters are meant as they are written. The place after it; the first ]]> ends it."""
    end = text.find(DATA_END, at + len(DATA))
    if end < 0:
        raise no_document("CDATA that does not end", at)
    join_run(element, line_ends(text[at + len(DATA):end]))
    return end + len(DATA_END)


def join_run(element, run):
    """Characters join the run before them, where only comments stand between; none of them make no run."""
    if not run:
        return
    if element.contents and isinstance(element.contents[-1], bytearray):
        element.contents[-1] += run
    else:
        element.contents.append(bytearray(run))


def close(element, end):
    element.end = end
    element.contents = [c if isinstance(c, Element) else bytes(c) for c in element.contents]


def root_element(text, at):
    """The element that stands at `at`, and the place after it."""
    root, empty, at = start_tag(text, at)
    if empty:
        return root, at
    stack = [root]
    while stack:
        angle = text.find(b"<", at)
        if angle < 0:
            raise no_document(f"the text ends, and {stack[-1].name.decode()} is open", len(text))
        if angle > at:
            add_run(stack[-1], text[at:angle], at)
        if text.startswith(b"<!--", angle):
            at = comment_end(text, angle)
        elif text.startswith(DATA, angle):
            at = add_data(stack[-1], text, angle)
        elif text.startswith(b"</", angle):
            tag = END_TAG.match(text, angle)
            if not tag or tag["name"] != stack[-1].name:
                raise no_document(f"a wrong end tag: {stack[-1].name.decode()} is open", angle)
            close(stack.pop(), angle)
            at = tag.end()
        else:
            element, empty, at = start_tag(text, angle)
            if len(stack) >= DEPTH_LIMIT:
                raise no_document("too deep", angle)
            stack[-1].contents.append(element)
            if not empty:
                stack.append(element)
    return root, at


def root_start(text):
    """Where the root begins: behind the declaration, a DOCTYPE, and blanks and comments round it, as far as they are there."""
    declared = DECLARATION.match(text)
    at = skip_aside(text, declared.end() if declared else 0)
    doctype = DOCTYPE.match(text, at)
    return skip_aside(text, doctype.end()) if doctype else at


def document(text):
    """The root of the one document that these bytes write; refusal 3 where there is none."""
    check_characters(text)
    root, at = root_element(text, root_start(text))
    at = skip_aside(text, at)
    if at != len(text):
        raise no_document("something after the root", at)
    return root


def lines(element):
    """What is shown of an element: its start, attributes, contents and end, values and runs in hexadecimal."""
    yield b"<" + element.name
    for name, value in element.attributes:
        yield b"@" + name + b" " + value.hex().encode()
    for one in element.contents:
        if isinstance(one, Element):
            yield from lines(one)
        else:
            yield b"#" + one.hex().encode()
    yield b">"


def outline(text):
    """The whole output of the program that shows a document."""
    if len(text) > OUTLINE_LIMIT:
        return b"refused 2\n"
    try:
        return b"".join(line + b"\n" for line in lines(document(text)))
    except Refused as refused:
        return b"refused %d\n" % refused.number
