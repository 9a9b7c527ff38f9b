"""The rules of docs/FORMAT.md, part X, as a function of a tape and the room of the output.

It stands on write_model.py for the tape (T, G) and shares nothing with the proved code."""
import base64
import datetime
import math
import struct

from write_model import Refused, event_at, root_of

HEADER = (
    b'<?xml version="1.0" encoding="UTF-8"?>\n'
    b'<!DOCTYPE plist PUBLIC "-//Apple//DTD PLIST 1.0//EN" "http://www.apple.com/DTDs/PropertyList-1.0.dtd">\n'
    b'<plist version="1.0">\n'
)
FOOTER = b"</plist>\n"
FIRST, LAST = -63_113_904_000, 252_423_993_600  # C6: the seconds of the first day, and behind those of the last
BEGIN = datetime.datetime(1, 1, 1)


def stamp(content):
    """X3, C6: the day and time of a date's eight bytes, or None."""
    seconds = math.floor(struct.unpack(">d", content)[0])
    if not FIRST <= seconds < LAST:
        return None
    time = BEGIN + datetime.timedelta(seconds=seconds - FIRST)
    return f"{time.year:04}-{time:%m-%dT%H:%M:%S}Z".encode()


def is_char(character):
    """XML 1.0, production 2."""
    v = ord(character)
    return v in (9, 10, 13) or 0x20 <= v <= 0xD7FF or 0xE000 <= v <= 0xFFFD or 0x10000 <= v <= 0x10FFFF


def escaped(content):
    """X5."""
    return content.replace(b"&", b"&amp;").replace(b"<", b"&lt;").replace(b">", b"&gt;")


def element(name, content):
    return b"<%s>%s</%s>\n" % (name, content, name)


def scalar_line(name, value, key, at):
    """X3 to X6: the line of a scalar, where a key is due or isn't."""
    if name in ("Real", "Uid"):
        raise Refused(35, at)
    if name == "String":
        if not all(map(is_char, value.decode())):
            raise Refused(36, at)
        return element(b"key" if key else b"string", escaped(value))
    if name == "Date":
        day = stamp(value)
        if day is None:
            raise Refused(30, at)
        return element(b"date", day)
    if name == "Boolean":
        return b"<true/>\n" if value else b"<false/>\n"
    if name == "Data":
        return element(b"data", base64.b64encode(value))
    return element(b"integer", str(value).encode())


def xml_of(tape):
    """The XML of a tape; Refused is raised where it has none."""
    root_of(tape)
    lines, opened, at = [HEADER], [], 0  # of each open container its name, and whether a key is due in it
    while at < len(tape):
        (name, value), after = event_at(tape, at)
        if name in ("StartArray", "StartDictionary"):
            kind = b"array" if name == "StartArray" else b"dict"
            lines.append(b"<%s>\n" % kind)
            opened.append([kind, kind == b"dict"])
        else:
            if name == "EndCollection":
                lines.append(b"</%s>\n" % opened.pop()[0])
            else:
                lines.append(scalar_line(name, value, bool(opened) and opened[-1][1], at))
            if opened and opened[-1][0] == b"dict":
                opened[-1][1] = not opened[-1][1]
        at = after
    return b"".join([*lines, FOOTER])


def write(tape, room):
    """X7, X8: the XML, or Refused."""
    xml = xml_of(tape)
    if len(xml) > room:
        raise Refused(25, 0)
    return xml
