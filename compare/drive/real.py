#!/usr/bin/env python3
"""Files of other writers, one a line: the writer's name and the file in hex.

Python's plistlib always, biplist and libplist's plistutil where they are installed. The same seed
gives the same values.
"""

import datetime
import plistlib
import random
import shutil
import subprocess
import sys
import tempfile

SCALARS = (0x41, 0x7A, 0xE9, 0x7FF, 0x800, 0x6973, 0xD7FF, 0xE000, 0xFFFD, 0x10000, 0x1F600, 0x10FFFF)
NUMBERS = (0, 1, 127, 128, 255, 256, 32767, 65535, 65536, (1 << 31) - 1, 1 << 31, (1 << 32) - 1, 1 << 32, (1 << 63) - 1)


def text(rng, most):
    if rng.randrange(2):
        return "".join(rng.choice("abcdefghijklmnop -_.") for _ in range(rng.randrange(most)))
    return "".join(chr(rng.choice(SCALARS)) for _ in range(rng.randrange(most)))


def scalar(rng):
    pick = rng.randrange(8)
    if pick == 0:
        return bool(rng.randrange(2))
    if pick in (1, 2):
        return rng.choice((1, 1, -1)) * rng.choice(NUMBERS)
    if pick == 3:
        return rng.choice((0.0, -0.0, 1.5, -3.25e10, 1e300, rng.random()))
    if pick == 4:
        return rng.randbytes(rng.choice((0, 1, 8, 14, 15, 16, 40, 300)))
    return text(rng, rng.choice((3, 10, 20, 60)))


def value(rng, levels, most):
    pick = rng.randrange(6)
    if levels == 0 or pick < 3:
        return scalar(rng)
    if pick == 3:
        return [value(rng, levels - 1, most) for _ in range(rng.randrange(most))]
    return {text(rng, 12) or "k": value(rng, levels - 1, most) for _ in range(rng.randrange(most))}


def values(rng):
    """Small trees, trees of some hundred objects, and lists that need wide references and offsets."""
    for _ in range(400):
        levels, most = rng.randrange(4), rng.choice((3, 5, 8))
        yield {f"{text(rng, 9)}{i}": value(rng, levels, most) for i in range(rng.randrange(1, 9))}
    for count in (14, 15, 16, 254, 255, 256, 257, 400):
        yield [f"element {i}" for i in range(count)]
        yield {f"key {i}": i for i in range(count)}
    yield [rng.randbytes(70000), "behind three bytes of offsets"]
    yield ["x" * 65536, "\u7070" * 300]
    yield {"when": datetime.datetime(2001, 1, 1), "after": 1}


def with_plistlib(each):
    return plistlib.dumps(each, fmt=plistlib.FMT_BINARY)


# Debian's packages are for Debian's Python, which may not be the one that runs this.
sys.path.append("/usr/lib/python3/dist-packages")


def with_biplist(each):
    import biplist
    return biplist.writePlistToString(each)


def with_plistutil(each):
    with tempfile.TemporaryDirectory() as folder:
        with open(f"{folder}/in.plist", "wb") as file:
            file.write(plistlib.dumps(each, fmt=plistlib.FMT_XML))
        subprocess.run(["plistutil", "-i", f"{folder}/in.plist", "-o", f"{folder}/out.plist"],
                       check=True, capture_output=True)
        with open(f"{folder}/out.plist", "rb") as file:
            return file.read()


def writers():
    yield "plistlib", with_plistlib
    try:
        import biplist  # noqa: F401
        yield "biplist", with_biplist
    except ImportError:
        print("real.py: no biplist (Debian's python3-biplist)", file=sys.stderr)
    if shutil.which("plistutil"):
        yield "plistutil", with_plistutil
    else:
        print("real.py: no plistutil (Debian's libplist-utils)", file=sys.stderr)


def uids(rng):
    """plistlib alone writes UIDs."""
    for _ in range(20):
        yield [plistlib.UID(rng.choice(NUMBERS)) for _ in range(rng.randrange(1, 6))]


def main():
    for name, write in writers():
        rng = random.Random("real")
        for each in [*values(rng), *(uids(rng) if name == "plistlib" else ())]:
            try:
                file = write(each)
            except Exception as error:  # what a writer can't write is no input
                print(f"real.py: {name}: {type(error).__name__} {str(error)[:60]}", file=sys.stderr)
                continue
            if file.startswith(b"bplist00"):
                print(name, file.hex())


main()
