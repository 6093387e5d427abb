"""Grey pictures: PGM (P2, P5) and PNG to rows of bytes and back; P5 by the proved library (pgm), the others here."""
import os
import re
import struct
import zlib
from dataclasses import dataclass

import pgm
from records import Refused

PNG_MARK = b"\x89PNG\r\n\x1a\n"
# colour type: samples of a pixel
PNG_SAMPLES = {0: 1, 2: 3, 3: 1, 4: 2, 6: 4}
# what a picture may have before a part of it is cut out
MOST_PIXELS = 1 << 26


class Unreadable(Exception):
    """A file that is no picture that is read or written here, with the reason."""


@dataclass(frozen=True)
class Picture:
    width: int
    height: int
    pixels: bytes

    def crop(self, x, y, width, height):
        """The part of the given size whose first pixel is (x, y)."""
        if min(x, y) < 0 or min(width, height) < 1 or x + width > self.width or y + height > self.height:
            raise Unreadable(f"{width} by {height} from ({x}, {y}) is no part of {self.width} by {self.height}")
        starts = range(y * self.width + x, (y + height) * self.width, self.width)
        return Picture(width, height, b"".join(self.pixels[start : start + width] for start in starts))


def sized(width, height):
    if width < 1 or height < 1:
        raise Unreadable("a side is 0")
    if width * height > MOST_PIXELS:
        raise Unreadable(f"{width} by {height} is more than {MOST_PIXELS} pixels")
    return width, height


# ---- PGM


# "P2", then width, height and greatest value, with comments between them
PLAIN_HEADER = re.compile(rb"P2" + 3 * rb"(?:\s|#[^\n]*\n)+(\d{1,9})" + rb"\s")


def plain_values(text, count):
    """The first `count` numbers of P2's text."""
    words = re.sub(rb"#[^\n]*", b"", text).split()[:count]
    for word in words:
        if not re.fullmatch(rb"\d{1,9}", word):
            raise Unreadable(f"PGM: {word[:20]!r} is no grey level")
    return [int(word) for word in words]


def read_plain_pgm(data):
    header = PLAIN_HEADER.match(data)
    if not header:
        raise Unreadable("PGM: no width, height and greatest value")
    width, height, most = map(int, header.groups())
    sized(width, height)
    if not 1 <= most <= 255:
        raise Unreadable(f"PGM: greatest value {most}; only 1 to 255 is read")
    count = width * height
    values = plain_values(data[header.end() :], count)
    if len(values) < count:
        raise Unreadable(f"PGM: {len(values)} pixels, not {count}")
    if max(values) > most:
        raise Unreadable(f"PGM: a pixel is above the greatest value {most}")
    return Picture(width, height, bytes((value * 255 + most // 2) // most for value in values))


def read_pgm(data):
    return Picture(*pgm.read(data))


def write_pgm(picture):
    return pgm.write(picture.width, picture.height, picture.pixels)


# ---- PNG


def png_chunks(data):
    """The chunks by name, the parts of IDAT joined; each chunk's CRC is held to its bytes."""
    chunks, place = {}, len(PNG_MARK)
    while b"IEND" not in chunks:
        if place + 12 > len(data):
            raise Unreadable("PNG: ends early")
        length, name = struct.unpack_from(">I4s", data, place)
        body = data[place + 8 : place + 8 + length]
        if data[place + 8 + length : place + 12 + length] != struct.pack(">I", zlib.crc32(name + body)):
            raise Unreadable(f"PNG: chunk {name.decode('latin-1')} is damaged")
        chunks.setdefault(name, []).append(body)
        place += 12 + length
    return {name: b"".join(bodies) for name, bodies in chunks.items()}


def png_header(chunks):
    """Width, height, bits of a sample and colour type of a PNG that is read here."""
    if len(chunks.get(b"IHDR", b"")) != 13 or b"IDAT" not in chunks:
        raise Unreadable("PNG: no header or no pixels")
    width, height, depth, colour, _, _, interlace = struct.unpack(">IIBBBBB", chunks[b"IHDR"])
    sized(width, height)
    if interlace:
        raise Unreadable("PNG: interlaced; save it without interlacing")
    if colour not in PNG_SAMPLES or depth not in ((1, 2, 4, 8) if colour in (0, 3) else (8,)):
        raise Unreadable(f"PNG: {depth} bits of colour type {colour}; save it with 8 bits a sample")
    if b"tRNS" in chunks and colour != 3:
        raise Unreadable("PNG: one transparent colour (tRNS); save it without, or with an alpha channel")
    return width, height, depth, colour


def paeth(a, b, c):
    """Of left, above and above left the one nearest to left + above - above left."""
    p = a + b - c
    return min((abs(p - a), 0, a), (abs(p - b), 1, b), (abs(p - c), 2, c))[2]


def unfiltered(kind, row, above, step):
    """A row's bytes from its filtered ones; `step` bytes are one pixel."""
    predict = {
        0: lambda a, b, c: 0,
        1: lambda a, b, c: a,
        2: lambda a, b, c: b,
        3: lambda a, b, c: (a + b) // 2,
        4: paeth,
    }.get(kind)
    if predict is None:
        raise Unreadable(f"PNG: row filter {kind}")
    out = bytearray(step) + row
    above = bytes(step) + above
    for i in range(step, len(out)):
        out[i] = (out[i] + predict(out[i - step], above[i], above[i - step])) & 255
    return bytes(out[step:])


def unpacked(row, depth, width):
    """A row's samples of less than 8 bits, the highest bits first."""
    if depth == 8:
        return row
    each = 8 // depth
    return bytes(row[i // each] >> (8 - depth - i % each * depth) & (1 << depth) - 1 for i in range(width))


def grey(red, green, blue):
    """The luminance of ITU-R BT.601, rounded."""
    return (299 * red + 587 * green + 114 * blue + 500) // 1000


def over_white(level, alpha):
    return (level * alpha + 255 * (255 - alpha) + 127) // 255


def grey_palette(colours, alphas):
    """The palette's grey levels over white; where alphas end, colours are opaque."""
    levels = map(grey, colours[0::3], colours[1::3], colours[2::3])
    return bytes(map(over_white, levels, alphas + b"\xff" * 256))


def grey_row(row, depth, colour, palette):
    """A row of samples as grey levels; alpha stands over white."""
    if colour == 0:
        return bytes(sample * 255 // ((1 << depth) - 1) for sample in row)
    if colour == 2:
        return bytes(map(grey, row[0::3], row[1::3], row[2::3]))
    if colour == 3:
        if max(row) >= len(palette):
            raise Unreadable("PNG: a colour outside the palette")
        return bytes(palette[sample] for sample in row)
    if colour == 4:
        return bytes(map(over_white, row[0::2], row[1::2]))
    return bytes(map(over_white, map(grey, row[0::4], row[1::4], row[2::4]), row[3::4]))


def read_png(data):
    chunks = png_chunks(data)
    width, height, depth, colour = png_header(chunks)
    palette = grey_palette(chunks.get(b"PLTE", b""), chunks.get(b"tRNS", b""))
    step = max(1, PNG_SAMPLES[colour] * depth // 8)
    length = (width * PNG_SAMPLES[colour] * depth + 7) // 8
    try:
        filtered = zlib.decompressobj().decompress(chunks[b"IDAT"], height * (length + 1))
    except zlib.error as error:
        raise Unreadable(f"PNG: {error}") from None
    if len(filtered) < height * (length + 1):
        raise Unreadable("PNG: fewer rows than its height")
    row, out = bytes(length), []
    for start in range(0, len(filtered), length + 1):
        row = unfiltered(filtered[start], filtered[start + 1 : start + 1 + length], row, step)
        out.append(grey_row(unpacked(row, depth, width), depth, colour, palette))
    return Picture(width, height, b"".join(out))


def write_png(picture):
    def chunk(name, body):
        return struct.pack(">I", len(body)) + name + body + struct.pack(">I", zlib.crc32(name + body))

    width = picture.width
    rows = b"".join(b"\0" + picture.pixels[start : start + width] for start in range(0, len(picture.pixels), width))
    header = struct.pack(">IIBBBBB", width, picture.height, 8, 0, 0, 0, 0)
    return PNG_MARK + chunk(b"IHDR", header) + chunk(b"IDAT", zlib.compress(rows, 9)) + chunk(b"IEND", b"")


# ---- files


READERS = {PNG_MARK: read_png, b"P2": read_plain_pgm, b"P5": read_pgm}
WRITERS = {".pgm": write_pgm, ".png": write_png}


def read(path):
    """The picture in a file, whose first bytes say what it is."""
    with open(path, "rb") as file:
        data = file.read()
    reader = next((reader for mark, reader in READERS.items() if data.startswith(mark)), None)
    if reader is None:
        raise Unreadable(f"{path} is neither PGM (P2, P5) nor PNG")
    try:
        return reader(data)
    except (Unreadable, Refused) as error:
        raise Unreadable(f"{path}: {error}") from None


def write(path, picture):
    """Writes the picture as its file name's ending says."""
    writer = WRITERS.get(os.path.splitext(path)[1].lower())
    if writer is None:
        raise Unreadable(f"{path} ends neither in .pgm nor in .png")
    try:
        data = writer(picture)
    except Refused as error:
        raise Unreadable(f"{path}: {error}") from None
    with open(path, "wb") as file:
        file.write(data)


def add_crop(parser):
    parser.add_argument(
        "--crop",
        type=int,
        nargs=4,
        metavar=("X", "Y", "W", "H"),
        help="only the W by H pixels whose first is (X, Y); a P5 above 1,024 pixels a side is refused all the same",
    )
