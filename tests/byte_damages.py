"""Ways to spoil the bytes of a text: flips, cuts, insertions and faults of UTF-8 and of markup."""
import re

PIECES = [b"<", b">", b"&", b"]]>", b"<!--", b"-->", b"--", b'"', b"'", b"/", b"=", b"&amp;", b"&#65;", b"&nbsp;",
          b"&amp", b"&AMP;", b"</Matrix>", b"<a/>", b"<a>", b"</a>", b"<![CDATA[x]]>", b"<?pi x?>",
          b"<![CDATA[", b"<![CDATA[]]>", b"<![CDATA[ \r]]>", b"<![CDATA[]]]]>", b"<![CDATA[&lt;<a>]]>", b"<![cdata[]]>", b"<![CDATA]]>",
          b"<!DOCTYPE CIFTI>", b"\xef\xbb\xbf", b"\xef\xbf\xbe", b"\xef\xbf\xbf", b"\xed\xa0\x80", b"\xc0\x80",
          b"\xc1\xbf", b"\xe0\x9f\xbf", b"\xf0\x8f\xbf\xbf", b"\xf4\x90\x80\x80", b"\xf5\x80\x80\x80", b"\x80",
          b"\xc3", b"\xe2\x82", b"\xf0\x9f\x98", b"\x00", b"\x0b", b"\x0c", b"\x1f", b"\x7f", b"\xc2\x80",
          b"\xed\x9f\xbf", b"\xee\x80\x80", b"\xf4\x8f\xbf\xbf", b"\xf0\x90\x80\x80", b"\xef\xbf\xbd", b" ", b"\n",
          b"\t", b"\r", b"\r\n", b"0", b"1", b"9", b"-", b"+", b".", b",", b"x", b"<!---->", b"<!--->", b"<!-- - -->",
          b"<!--a--->", b"<>", b"< a/>"]
FIRSTS = [b"\xef\xbb\xbf", b" <?xml version=\"1.0\"?>", b"<?xml version=\"1.1\"?>",
          b"<?xml version=\"1.0\" encoding=\"utf-8\"?>", b"<?xml?>", b"<?xml version=\"1.0\" standalone=\"yes\"?>",
          b"<?xml encoding=\"UTF-8\" version=\"1.0\"?>", b"<?xmlversion=\"1.0\"?>", b"x", b"<!DOCTYPE CIFTI>", b"<!DOCTYPE>",
          b"<!DOCTYPE a [ ]>", b"<!DOCTYPE a", b"<!doctype a>", b"<!DOCTYPE '>'>", b"<!DOCTYPE a--><!---->", b"<![CDATA[]]>",
          b"<?xml version=\"1.0\"encoding=\"UTF-8\"?>", b"<?XML version=\"1.0\"?>", b"<?xml version='1.0\"?>",
          b"<a/>", b"]]>", b"&amp;", b"<?xml version=\"1.0\" ? >"]
LASTS = [b"x", b"<a/>", b"<![CDATA[]]>", b"<!DOCTYPE a>",
         b"\x00", b"&amp;", b"]]>", b"<!--", b"<!-- -->", b"\xef\xbb\xbf", b"</CIFTI>", b" \n",
         b"<?xml version=\"1.0\"?>"]

DOCTYPES = [b"<!DOCTYPE a>", b"<!DOCTYPE a><!DOCTYPE a>", b"<!DOCTYPE a [ ]>", b"<!DOCTYPE a]>", b"<!DOCTYPE a <b>>", b"<!DOCTYPE '>'>",
            b"<!DOCTYPE a -- \x00>", b"<!DOCTYPE a", b"<!DOCTYPE>", b"<!doctype a>", b"<!DOCTYPE a--><!-- -->", b"<![CDATA[]]>"]


def spot(rng, text):
    """A place: anywhere, or right at a byte of markup."""
    if text and rng.random() < 0.5:
        marks = [at for at in range(len(text)) if text[at] in b"<>\"'=/&"] if len(text) < 20000 else []
        if marks:
            return rng.choice(marks) + rng.choice([0, 1])
    return rng.randrange(len(text) + 1)


def flip(rng, text):
    at = min(spot(rng, text), len(text) - 1)
    return text[:at] + bytes([rng.choice([text[at] ^ 1 << rng.randrange(8), rng.randrange(256)])]) + text[at + 1:]


def cut(rng, text):
    return text[:rng.choice([0, len(text) - 1, len(text) - rng.randint(0, min(40, len(text))), spot(rng, text)])]


def remove(rng, text):
    at = spot(rng, text)
    return text[:at] + text[at + rng.choice([1, 1, 1, 2, 5, 40]):]


def insert(rng, text):
    at = spot(rng, text)
    return text[:at] + rng.choice(PIECES) + text[at:]


def again(rng, text):
    at = spot(rng, text)
    end = at + rng.choice([1, 3, 20, 200])
    return text[:end] + text[at:end] + text[end:]


def before(rng, text):
    return rng.choice(FIRSTS) + text


def before_root(rng, text):
    """What may stand before the root once, and what may not."""
    root = re.search(rb"<[A-Za-z_]", text)
    return text[:root.start()] + rng.choice(DOCTYPES) + text[root.start():] if root else text


def after(rng, text):
    return text + rng.choice(LASTS)


def end_tag(rng, text):
    ends = [at for at in range(len(text)) if text.startswith(b"</", at)] if len(text) < 20000 else []
    if not ends:
        return text
    at = rng.choice(ends)
    return text[:at] + rng.choice([b"</x>", b"</", b"< /", b"</ ", b""]) + text[at + rng.choice([0, 2]):]


ON_BYTES = [flip, flip, flip, cut, remove, remove, insert, insert, insert, again, before, before_root, after, end_tag]
