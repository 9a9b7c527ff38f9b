"""The lookup of a value by its path as a function of a tape and the path's bytes.

Written from docs/FORMAT.md (Q), whose rules are named here, over the tape's rules in write_model.py. The value is sought in a tree of values;
it shares nothing with the proved code."""
import write_model
from write_model import Refused, event_at, number_at


class Value:
    """A value: its kind, where its bytes begin and end, and the members of a container; a text has its bytes."""

    def __init__(self, kind, start, content=None):
        self.kind, self.start, self.end, self.content, self.members = kind, start, start, content, []


def tree_of(tape):
    """Q1: the root of a tape that is one whole root, with all that is in it."""
    opened, at = [], 0
    while True:
        (name, content), after = event_at(tape, at)
        if name == "EndCollection":
            value = opened.pop()
        else:
            value = Value(name, at, content)
            if opened:
                opened[-1].members.append(value)
            if name in write_model.STARTS.values():
                opened.append(value)
        value.end = at = after
        if not opened:
            return value


def keys_of(path):
    """Q5: the keys of a path, or None where the bytes are no path."""
    got = number_at(path, 0)
    if got is None:
        return None
    count, at = got
    keys = []
    while len(keys) < count:
        got = number_at(path, at)
        if got is None or len(path) - got[1] < got[0]:
            return None
        at = sum(got)
        keys.append(path[got[1] : at])
    return keys if at == len(path) else None


def under(value, key):
    """Q2, Q3: the value of the first pair with this key, or None."""
    if value.kind != "StartDictionary":
        return None
    pairs = zip(value.members[0::2], value.members[1::2], strict=True)
    return next((content for name, content in pairs if name.content == key), None)


def find(tape, path):
    """Q6, Q7: where the part begins and how long it is, None where there is no such value, or a refusal."""
    write_model.root_of(tape)
    keys = keys_of(path)
    if keys is None:
        raise Refused(33, 0)
    value = tree_of(tape)
    for key in keys:
        value = value and under(value, key)
    return value and (value.start, value.end - value.start)


def path_of(keys):
    """Q5: the bytes of a path."""
    return number(len(keys)) + b"".join(number(len(key)) + key for key in keys)


NOT_PATH, NO_ROOM = (1 << 64) - 1, (1 << 64) - 2


def append(memory, held, key):
    """Q8: how many bytes are held then, or the number for none, and the memory afterwards."""
    keys = [] if held == 0 else keys_of(memory[:held]) if held <= len(memory) else None
    if keys is None:
        return NOT_PATH, memory
    path = path_of([*keys, key])
    if len(memory) < len(path):
        return NO_ROOM, memory
    return len(path), path + memory[len(path) :]


def number(value):
    """T1: the groups of a number."""
    head = b""
    while value > 127:
        head += bytes([value % 128 + 128])
        value //= 128
    return head + bytes([value])
