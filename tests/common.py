"""What the tests of press share: a font that shows texts as they are, pictures read as text, and a store's file read from its description alone."""
import os, re, sys

PRIME, IMAGE, VALUES = 4294967291, {1: 65, 2: 83}, 340

def fault(text):
    sys.exit(f"{os.path.basename(sys.argv[0])}: WRONG: {text}")

def program(words):
    """How press is run, from any folder."""
    return [os.path.abspath(w) if os.path.exists(w) else w for w in words]

def font():
    """Cells of 8 by 1 dots, each glyph its own code: a line of text is that text in the bytes of its row."""
    rows = b"".join(bytes([2, 2, 0, c, c]) for c in range(32, 127))
    return bytes([1, 2, 0, 8, 1]) + rows + bytes([255, 0, 0])

def shown(path, row=0):
    """The text that a row of a picture shows."""
    b = open(path, "rb").read()
    m = re.match(rb"P4\n(\d+) (\d+)\n", b)
    across = (int(m[1]) + 7) // 8 if m else 0
    if not m or len(b) != m.end() + across * int(m[2]):
        fault(f"{path} is cut")
    at = m.end() + row * across
    return b[at:at + across].rstrip(b"\0").decode()

def number(b, at, n):
    return int.from_bytes(b[at:at + n], "little")

def total(s, b):
    for at in range(0, len(b), 256):
        part = b[at:at + 256]
        if part == NOTHING:
            s = (s * PAST[0] + PAST[1]) % PRIME
            continue
        for x in part:
            s = (s * 257 + x + 1) % PRIME
    return s

# 256 zeros, and what they make of a sum: most of a store is such
NOTHING, PAST = bytes(256), (pow(257, 256, PRIME), sum(pow(257, k, PRIME) for k in range(256)) % PRIME)

bodies = {}
def read_store(path):
    """Version, the slot that holds (order, pictures, image), and how many slots are cut: magic, sizes, sums and slots are read here once more."""
    b = open(path, "rb").read()
    version, rows = number(b, 16, 2), number(b, 18, 2)
    if b[:16] != b"Skeinferry store" or version not in IMAGE or number(b, 20, 2) != 2024 or number(b, 22, 2) != 512:
        fault("head")
    if len(b) != 542672 + 76 * rows:
        fault("length")
    mark = number(b, 24, 4)
    if bodies.get(mark) != b[12288:]:
        if total(total(1, b[:24]), b[12288:]) != mark:
            fault("sum of the body")
        bodies.clear()
        bodies[mark] = b[12288:]
    end, good, cut = 8 + IMAGE[version] + VALUES, [], 0
    for at in (4096, 8192):
        s = b[at:at + end + 4]
        if total(mark, s[:end]) == number(s, end, 4):
            good.append((number(s, 0, 4), number(s, 4, 4), s[8:8 + IMAGE[version]]))
        elif number(s, 0, 4):
            cut += 1
    if not good:
        fault("no slot is whole")
    return version, max(good), cut
