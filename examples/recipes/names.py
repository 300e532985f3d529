"""Makes a name of each line, or with --back the line of a name: what a name can't have is _ and two hexadecimal digits."""

import re
import sys


def name(text):
    """The name of some bytes: letters, digits and - stay, and so does nothing else; a letter stands first."""
    kept = re.sub(rb"^[^A-Za-z]|[^A-Za-z0-9-]", lambda found: b"_%02x" % found[0][0], text)
    return b"_%02x" % kept[0] + kept[1:] if kept in (b"some", b"inv") else kept


def text(of):
    """The bytes of a name."""
    return re.sub(rb"_([0-9a-f]{2})", lambda found: bytes.fromhex(found[1].decode()), of)


for line in sys.stdin.buffer.read().splitlines():
    made = text(line) if "--back" in sys.argv else name(line)
    if "--back" not in sys.argv and not 0 < len(made) <= 64:
        sys.exit(f"names.py: no name, or one of more than 64 bytes: {line!r}")
    sys.stdout.buffer.write(made + b"\n")
