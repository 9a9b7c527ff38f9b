#!/usr/bin/env python3
"""What Python's plistlib and libplist make of our files.

Reads lines of a tape and the file that was written of it, in hex. Each reader must read each file,
and give the values that the tape has, but for what the reader lacks. libplist is the C library
(Debian's libplist3); where it isn't installed plistlib is asked alone.
"""

import collections
import ctypes
import ctypes.util
import datetime
import pathlib
import plistlib
import struct
import sys

sys.path.append(str(pathlib.Path(__file__).resolve().parent.parent))
import write_model  # noqa: E402

EPOCH = datetime.datetime(2001, 1, 1)
SECONDS = 1 << 31
SHOWN = 5
sys.setrecursionlimit(20_000)  # values, and plistlib, go down as deep as the containers


class Lacks(Exception):
    """A thing that a reader can't represent, by its name."""


# --- the tape's value -----------------------------------------------------------------------------

def seconds_of(bits):
    return struct.unpack(">d", bits)[0]


def value_of(node):
    """Kind and value. Of equal keys the last one counts, as in both readers."""
    if isinstance(node, write_model.Container):
        members = [value_of(member) for member in node.members]
        if node.kind == "StartArray":
            return "array", members
        return "dictionary", {key[1]: value for key, value in zip(members[::2], members[1::2])}
    kind, value = node
    if kind == "String":
        return kind, value.decode()
    if kind == "Date":
        return kind, seconds_of(value)
    return kind, value


# --- what the readers lack ------------------------------------------------------------------------

def odd_date(kind, value):
    """Each reader rounds or refuses such dates in its own way."""
    if kind != "Date":
        return False
    seconds = seconds_of(value)
    return seconds != seconds or abs(seconds) >= SECONDS or seconds != int(seconds)


def nul_in_text(kind, value):
    return kind == "String" and 0 in value


def wide_uid(kind, value):
    return kind == "Uid" and value >= 1 << 32


DATES = (odd_date, "a date that isn't a whole second near the epoch")
NULS = (nul_in_text, "a NUL in a text")
UIDS = (wide_uid, "a UID above 4 bytes")


def without(lacks, root, containers):
    """Refuses a tape that has what a reader lacks, also where an equal key hides it."""
    nodes = [root, *(member for each in containers for member in each.members)]
    for node in nodes:
        if type(node) is tuple:
            for test, name in lacks:
                if test(*node):
                    raise Lacks(name)


# --- what the readers give ------------------------------------------------------------------------

def bits_of(real):
    return struct.pack(">d", real)


def by_plistlib(value):
    if isinstance(value, bool):
        return "Boolean", value
    if isinstance(value, int):
        return "Integer", value
    if isinstance(value, float):
        return "Real", bits_of(value)
    if isinstance(value, bytes):
        return "Data", value
    if isinstance(value, str):
        return "String", value
    if isinstance(value, plistlib.UID):
        return "Uid", value.data
    if isinstance(value, datetime.datetime):
        return "Date", int((value - EPOCH).total_seconds())
    if isinstance(value, list):
        return "array", [by_plistlib(each) for each in value]
    return "dictionary", {key: by_plistlib(each) for key, each in value.items()}


def read_plistlib(file, root, containers):
    without([DATES], root, containers)
    return by_plistlib(plistlib.loads(file, fmt=plistlib.FMT_BINARY)), value_of(root)


class Libplist:
    """The C library. It gives a negative integer by its 64 bits, and its keys end at a NUL."""

    KINDS = ("Boolean", "Integer", "Real", "String", "array", "dictionary", "Date", "Data", "Key", "Uid")

    def __init__(self, name):
        self.library = ctypes.CDLL(name)
        self.free = ctypes.CDLL(None).free
        self.free.argtypes = [ctypes.c_void_p]
        for function in ("plist_array_get_item", "plist_get_string_ptr", "plist_get_data_ptr"):
            getattr(self.library, function).restype = ctypes.c_void_p

    def read(self, file, root, containers):
        without([DATES, NULS, UIDS], root, containers)
        wanted = self.unsigned(value_of(root))
        node = ctypes.c_void_p()
        self.library.plist_from_bin(file, len(file), ctypes.byref(node))
        if not node:
            raise ValueError("not read")
        try:
            return self.value_of(node), wanted
        finally:
            self.library.plist_free(node)

    def unsigned(self, value):
        kind, content = value
        if kind == "array":
            return kind, [self.unsigned(each) for each in content]
        if kind == "dictionary":
            return kind, {key: self.unsigned(each) for key, each in content.items()}
        return kind, content % (1 << 64) if kind == "Integer" else content

    def value_of(self, node):
        kind = self.KINDS[self.library.plist_get_node_type(node)]
        return kind, getattr(self, kind.lower())(node)

    def given(self, function, node, result):
        getattr(self.library, function)(node, ctypes.byref(result))
        return result.value

    def boolean(self, node):
        return bool(self.given("plist_get_bool_val", node, ctypes.c_uint8()))

    def integer(self, node):
        return self.given("plist_get_uint_val", node, ctypes.c_uint64())

    def uid(self, node):
        return self.given("plist_get_uid_val", node, ctypes.c_uint64())

    def real(self, node):
        bits = ctypes.c_uint64()
        self.library.plist_get_real_val(node, ctypes.byref(bits))
        return struct.pack(">Q", bits.value)

    def bytes_by(self, function, node):
        length = ctypes.c_uint64()
        pointer = getattr(self.library, function)(node, ctypes.byref(length))
        return ctypes.string_at(pointer, length.value) if pointer else b""

    def data(self, node):
        return self.bytes_by("plist_get_data_ptr", node)

    def string(self, node):
        return self.bytes_by("plist_get_string_ptr", node).decode()

    def date(self, node):
        seconds, micros = ctypes.c_int32(), ctypes.c_int32()
        self.library.plist_get_date_val(node, ctypes.byref(seconds), ctypes.byref(micros))
        return seconds.value

    def array(self, node):
        count = self.library.plist_array_get_size(node)
        items = (self.library.plist_array_get_item(node, index) for index in range(count))
        return [self.value_of(ctypes.c_void_p(item)) for item in items]

    def dictionary(self, node):
        each, found = ctypes.c_void_p(), {}
        self.library.plist_dict_new_iter(node, ctypes.byref(each))
        while True:
            key, item = ctypes.c_void_p(), ctypes.c_void_p()
            self.library.plist_dict_next_item(node, each, ctypes.byref(key), ctypes.byref(item))
            if not item:
                break
            found[ctypes.string_at(key.value).decode()] = self.value_of(item)
            self.free(key)
        self.free(each)
        return found


# --- the run --------------------------------------------------------------------------------------

def main():
    readers = {"plistlib": read_plistlib}
    library = ctypes.util.find_library("plist-2.0")
    if library:
        readers["libplist"] = Libplist(library).read
    else:
        print("others.py: no libplist (Debian's libplist3)", file=sys.stderr)
    files = differences = 0
    equal, lacking = collections.Counter(), collections.Counter()
    for line in sys.stdin:
        tape, file = (bytes.fromhex(word) for word in line.split())
        root, containers, _ = write_model.root_of(tape)
        files += 1
        for name, read in readers.items():
            try:
                found, wanted = read(file, root, containers)
                if found == wanted:
                    equal[name] += 1
                    continue
                difference = f"{found}, the tape has {wanted}"
            except Lacks as lack:
                lacking[name, str(lack)] += 1
                continue
            except Exception as error:  # a file of ours that isn't read is a difference
                difference = f"{type(error).__name__} {error}"
            differences += 1
            if differences <= SHOWN:
                print(f"{name}: {difference[:400]}\n  {file.hex()[:2000]}")
    for name in readers:
        lacks = ", ".join(f"{count} with {lack}" for (who, lack), count in lacking.items() if who == name)
        print(f"{name}: {equal[name]} files read with equal values; not compared: {lacks or 'none'}")
    print(f"{files} files, {differences} differences")
    return differences > 0


sys.exit(main())
