"""Makes a screenshot small: a PNG of eight bits a channel becomes one of at most 256 colours. Standard library alone."""
import struct
import zlib
from collections import Counter

SIGNATURE, MOST_COLOURS = b"\x89PNG\r\n\x1a\n", 256


def chunks(data):
    at = len(SIGNATURE)
    while at < len(data):
        (length,), kind = struct.unpack(">I", data[at:at + 4]), data[at + 4:at + 8]
        yield kind, data[at + 8:at + 8 + length]
        at += 12 + length


def unfiltered(raw, width, height, size):
    """The lines of a picture; `size` is the bytes of a pixel."""
    before, lines, step = bytearray(width * size), [], width * size + 1
    for at in range(height):
        kind, line = raw[at * step], bytearray(raw[at * step + 1:(at + 1) * step])
        undo(kind, line, before, size)
        lines.append(line)
        before = line
    return lines


def undo(kind, line, before, size):
    """Undoes the filter of a line, in its place."""
    if kind == 2:
        line[:] = bytes((one + up) & 255 for one, up in zip(line, before))
    elif kind:
        for n, (one, up) in enumerate(zip(line, before)):
            left, corner = (line[n - size], before[n - size]) if n >= size else (0, 0)
            line[n] = (one + (left if kind == 1 else (left + up) // 2 if kind == 3 else paeth(left, up, corner))) & 255


def paeth(left, up, corner):
    """Which of the three is nearest to their plane; the first of those that are."""
    guess = left + up - corner
    to_left, to_up, to_corner = abs(guess - left), abs(guess - up), abs(guess - corner)
    if to_left <= to_up and to_left <= to_corner:
        return left
    return up if to_up <= to_corner else corner


def pixels(data):
    """Width, height and the colours of each line, as numbers 0xRRGGBB."""
    width, height, depth, kind = struct.unpack(">IIBB", data[len(SIGNATURE) + 8:len(SIGNATURE) + 18])
    if depth != 8 or kind not in (2, 6):
        raise ValueError("not a PNG of eight bits a channel")
    size = 3 if kind == 2 else 4
    raw = zlib.decompress(b"".join(it for name, it in chunks(data) if name == b"IDAT"))
    return width, height, [[line[n] << 16 | line[n + 1] << 8 | line[n + 2] for n in range(0, len(line), size)] for line in unfiltered(raw, width, height, size)]


def near(colour, palette):
    """The place of the colour of a palette that is nearest to one."""
    red, green, blue = colour >> 16, colour >> 8 & 255, colour & 255
    return min(range(len(palette)),
        key=lambda at: ((palette[at] >> 16) - red) ** 2 + ((palette[at] >> 8 & 255) - green) ** 2 + ((palette[at] & 255) - blue) ** 2)


def small(data):
    """The same picture with its most frequent colours; a rarer colour becomes the nearest of these."""
    width, height, lines = pixels(data)
    counts = Counter(it for line in lines for it in line)
    palette = [it for it, _ in counts.most_common(MOST_COLOURS)]
    place = {it: at for at, it in enumerate(palette)}
    for it in counts:
        if it not in place:
            place[it] = near(it, palette)
    raw = b"".join(b"\0" + bytes(place[it] for it in line) for line in lines)
    parts = [(b"IHDR", struct.pack(">IIBBBBB", width, height, 8, 3, 0, 0, 0)), (b"PLTE", b"".join(it.to_bytes(3, "big") for it in palette)),
        (b"IDAT", zlib.compress(raw, 9)), (b"IEND", b"")]
    return SIGNATURE + b"".join(struct.pack(">I", len(text)) + name + text + struct.pack(">I", zlib.crc32(name + text)) for name, text in parts)
