"""Families of tapes with a path for the lookup, in the same form as those for the reader; each gives both."""

import find_model

from . import tape, write_families
from .tape import END

KEYS = (b"", b"a", b"b", b"ab", b"aba", b"key", "é".encode(), b"matter", b"hold", b"until", b"until\0", b"x" * 130)


# --- good tapes -----------------------------------------------------------------------------------

def value(rng, levels, keys=KEYS):
    """Mostly dictionaries, whose keys come from a small choice, so that some stand twice and some begin with others."""
    if levels == 0 or rng.randrange(4) == 0:
        return rng.choice((write_families.scalar(rng), tape.text(rng.choice(keys))))
    count = rng.choice((0, 1, 2, 3, 4, 5))
    length = write_families.length(rng, count)
    if rng.randrange(4) == 0:
        return tape.start_array(length) + b"".join(value(rng, levels - 1, keys) for _ in range(count)) + END
    pairs = b"".join(tape.text(rng.choice(keys)) + value(rng, levels - 1, keys) for _ in range(count))
    return tape.start_dictionary(length) + pairs + END


def root(rng, levels, keys=KEYS):
    """A dictionary with a pair at least."""
    count = rng.randrange(1, 6)
    pairs = b"".join(tape.text(rng.choice(keys)) + value(rng, levels, keys) for _ in range(count))
    return tape.start_dictionary(write_families.length(rng, count)) + pairs + END


def paths_in(value, keys=()):
    """The path of every pair, also of those that a first pair hides, and into members of arrays as if these had the key before."""
    yield keys
    if value.kind == "StartDictionary":
        for name, content in zip(value.members[0::2], value.members[1::2], strict=True):
            yield from paths_in(content, (*keys, name.content))
    if value.kind == "StartArray":
        for member in value.members:
            yield from paths_in(member, keys)


def some_path(rng, good):
    """One of these, seldom the empty one where there are others."""
    paths = [*paths_in(find_model.tree_of(good))]
    keyed = [path for path in paths if path]
    return rng.choice(keyed if keyed and rng.randrange(8) else paths)


def known(rng):
    """A key that is there, or was hidden, at every step."""
    good = root(rng, rng.randrange(4))
    return good, find_model.path_of(some_path(rng, good))


def beside(rng):
    """One key changed: longer, shorter, by a byte, or another one."""
    good = root(rng, rng.randrange(4))
    keys = [*some_path(rng, good)]
    if keys:
        at = rng.randrange(len(keys))
        key = keys[at]
        changes = [key + rng.choice((b"\0", b"a", b"\xff")), rng.choice(KEYS)]
        if key:
            byte = rng.randrange(len(key))
            changes += [key[:-1], key[:byte] + bytes([key[byte] ^ 1 << rng.randrange(8)]) + key[byte + 1 :]]
        keys[at] = rng.choice(changes)
    return good, find_model.path_of(keys)


def further(rng):
    """A step further than the path leads: into a scalar, an array, or a dictionary."""
    good = root(rng, rng.randrange(4))
    return good, find_model.path_of((*some_path(rng, good), rng.choice(KEYS)))


def doubled(rng):
    """Few keys, so that nearly all stand twice or more."""
    good = root(rng, rng.randrange(1, 4), (b"a", b"aa"))
    return good, find_model.path_of(rng.choices((b"a", b"aa", b""), weights=(8, 3, 1), k=rng.randrange(4)))


def any_tapes(rng):
    """Tapes of the writer's families, bad ones too, with a path of their own where there is one."""
    name = rng.choice([*write_families.FAMILIES])
    drawn = write_families.FAMILIES[name](rng)[:400]
    try:
        find_model.write_model.root_of(drawn)
    except find_model.Refused:
        return drawn, find_model.path_of(rng.choices(KEYS, k=rng.randrange(3)))
    return drawn, find_model.path_of(some_path(rng, drawn))


def deep(rng):
    """Dictionaries inside each other, about 512 of them."""
    levels = rng.choice((1, 63, 127, 128, 510, 511, 512, 513))
    good = tape.start_dictionary() + (tape.text(b"a") + tape.start_dictionary()) * (levels - 1)
    good += tape.text(b"a") + tape.integer(levels) + END * levels
    count = max(0, levels + rng.choice((-2, -1, 0, 0, 1)))
    return good, find_model.path_of([b"a"] * count)


# --- bad ones -------------------------------------------------------------------------------------

def changed(rng, good):
    if not good:
        return rng.randbytes(1)
    at = rng.randrange(len(good))
    return rng.choice((good[:at], good[:at] + bytes([rng.randrange(256)]) + good[at + 1 :], good[:at] + good[at + 1 :], good + rng.randbytes(1)))


def bad_tapes(rng):
    good, path = known(rng)
    return changed(rng, good), path


def bad_paths(rng):
    good, path = known(rng)
    return good, changed(rng, path)


def numbers(rng):
    """Counts and lengths in forms that are none, and far too large."""
    forms = (b"\x80", b"\x80\0", b"\x81\0", b"\xff\xff\xff\xff\xff\xff\xff\xff\xff\x01", b"\xff\xff\xff\xff\xff\xff\xff\xff\xff\x02", b"\x80" * 9 + b"\x01", b"\xff" * 11, b"\x81\x01", b"\x01", b"\0", b"")
    good = value(rng, 2)
    return good, rng.choice(forms) + rng.choice((b"", b"\x01a", rng.choice(forms), b"a" * 129))


def both(rng):
    """The tape is refused first."""
    good, path = known(rng)
    return changed(rng, good), changed(rng, path)


# --- keys added to a path -------------------------------------------------------------------------

def appended(rng):
    """Memory, how many bytes are held, and a key: paths about 128 keys too, whose count gets longer; with room, just enough and too little."""
    keys = rng.choices(KEYS, k=rng.choice((0, 1, 2, 3, 126, 127, 128, 129)))
    path = find_model.path_of(keys)
    if rng.randrange(6) == 0:
        path = changed(rng, path)
    key = rng.choice((*KEYS, rng.randbytes(rng.choice((1, 126, 127, 128, 129, 300)))))
    held = rng.choice((len(path),) * 8 + (0, len(path) + 1, len(path) + rng.randrange(1 << 62)))
    needed = find_model.append(path + bytes(1000), held, key)[0]
    room = rng.choice((0, 1, 7)) + (needed if needed < 1 << 62 else len(path))
    return (path + rng.randbytes(room))[: max(0, room - rng.choice((0, 0, 1, 2)))], held, key


FAMILIES = {
    "known": known,
    "beside": beside,
    "further": further,
    "doubled": doubled,
    "any_tapes": any_tapes,
    "deep": deep,
    "bad_tapes": bad_tapes,
    "bad_paths": bad_paths,
    "numbers": numbers,
    "both": both,
}
