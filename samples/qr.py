"""QR symbols of version 1, level M (ISO/IEC 18004): alphanumeric text to 21 by 21 modules, and modules back to text."""

SIDE = 21
DATA, CHECK = 16, 10
CHARACTERS = "0123456789ABCDEFGHIJKLMNOPQRSTUVWXYZ $%*+-./:"
MASKS = [
    lambda r, c: (r + c) % 2 == 0,
    lambda r, c: r % 2 == 0,
    lambda r, c: c % 3 == 0,
    lambda r, c: (r + c) % 3 == 0,
    lambda r, c: (r // 2 + c // 3) % 2 == 0,
    lambda r, c: r * c % 2 + r * c % 3 == 0,
    lambda r, c: (r * c % 2 + r * c % 3) % 2 == 0,
    lambda r, c: ((r + c) % 2 + r * c % 3) % 2 == 0,
]


# ---- data and Reed-Solomon codewords


def data_codewords(text):
    """Mode, count, pairs of characters in 11 bits and a last one in 6, then the terminator and padding."""
    values = [CHARACTERS.index(character) for character in text]
    bits = f"0010{len(values):09b}"
    for i in range(0, len(values) - 1, 2):
        bits += f"{values[i] * 45 + values[i + 1]:011b}"
    if len(values) % 2:
        bits += f"{values[-1]:06b}"
    if len(bits) > 8 * DATA:
        raise ValueError(f"{text!r} is too long")
    bits += "0" * min(4, 8 * DATA - len(bits))
    bits += "0" * (-len(bits) % 8)
    words = [int(bits[i : i + 8], 2) for i in range(0, len(bits), 8)]
    return (words + [0xEC, 0x11] * DATA)[:DATA]


def product(a, b):
    """In the field of 256 elements modulo x^8 + x^4 + x^3 + x^2 + 1."""
    out = 0
    while b:
        out ^= a * (b & 1)
        a = a << 1 ^ (0x11D if a & 0x80 else 0)
        b >>= 1
    return out


def powers_of_two(count):
    out = [1]
    while len(out) < count:
        out.append(product(out[-1], 2))
    return out


def check_codewords(data):
    """The rest of data x^10 by the generator (x - 1)(x - 2)(x - 4) .."""
    generator = [1]
    for root in powers_of_two(CHECK):
        longer = generator + [0]
        generator = [a ^ product(b, root) for a, b in zip(longer, [0] + generator)]
    rest = list(data) + [0] * CHECK
    for i in range(len(data)):
        factor = rest[i]
        for j, g in enumerate(generator):
            rest[i + j] ^= product(g, factor)
    return rest[-CHECK:]


# ---- modules


def format_bits(mask):
    """Level M (00) and the mask with their BCH check bits, as the standard masks them."""
    rest = mask << 10
    for bit in range(14, 9, -1):
        if rest >> bit & 1:
            rest ^= 0x537 << bit - 10
    return (mask << 10 | rest) ^ 0x5412


def finder(row, column):
    """Whether a module of a finder pattern is dark, from its centre."""
    return max(abs(row), abs(column)) != 2 and max(abs(row), abs(column)) < 4


def fixed_modules():
    """Finder patterns with their separators, timing patterns and the dark module."""
    fixed = {}
    for r in range(SIDE):
        fixed[6, r] = fixed[r, 6] = r % 2 == 0
    for row, column in [(3, 3), (3, SIDE - 4), (SIDE - 4, 3)]:
        for r in range(max(0, row - 4), min(SIDE, row + 5)):
            for c in range(max(0, column - 4), min(SIDE, column + 5)):
                fixed[r, c] = finder(r - row, c - column)
    fixed[SIDE - 8, 8] = True
    return fixed


def format_modules(mask):
    """Both copies of the format, from its highest bit on."""
    first = [(8, c) for c in (0, 1, 2, 3, 4, 5, 7, 8)] + [(r, 8) for r in (7, 5, 4, 3, 2, 1, 0)]
    second = [(r, 8) for r in range(SIDE - 1, SIDE - 8, -1)] + [(8, c) for c in range(SIDE - 8, SIDE)]
    bits = [format_bits(mask) >> 14 - i & 1 == 1 for i in range(15)]
    return dict(zip(first + second, bits + bits))


def data_places():
    """Where the codewords' bits stand: two columns at a time from the right, up and down in turn, the timing column
    skipped."""
    taken = fixed_modules().keys() | format_modules(0).keys()
    places = []
    for turn, right in enumerate([20, 18, 16, 14, 12, 10, 8, 5, 3, 1]):
        rows = range(SIDE) if turn % 2 else range(SIDE - 1, -1, -1)
        places += [(r, c) for r in rows for c in (right, right - 1) if (r, c) not in taken]
    return places


def masked(codewords, mask):
    bits = "".join(f"{word:08b}" for word in codewords)
    modules = {place: (bit == "1") ^ MASKS[mask](*place) for place, bit in zip(data_places(), bits)}
    modules |= fixed_modules() | format_modules(mask)
    return [[modules[r, c] for c in range(SIDE)] for r in range(SIDE)]


def penalty(symbol):
    """The standard's four penalties, by which a mask is chosen."""
    total = 0
    for lines in (symbol, list(zip(*symbol))):
        for line in lines:
            text = "".join("#" if dark else "." for dark in line)
            runs = "".join(a + (" " if a != b else "") for a, b in zip(text, text[1:] + "!")).split()
            total += sum(len(run) - 2 for run in runs if len(run) >= 5)
            total += 40 * sum(text[i:].startswith(("#.###.#....", "....#.###.#")) for i in range(SIDE))
    total += 3 * sum(
        symbol[r][c] == symbol[r + 1][c] == symbol[r][c + 1] == symbol[r + 1][c + 1]
        for r in range(SIDE - 1)
        for c in range(SIDE - 1)
    )
    dark = sum(map(sum, symbol))
    return total + 10 * (abs(20 * dark - 10 * SIDE * SIDE) // (SIDE * SIDE))


def encode(text):
    """Rows of modules, True where dark."""
    data = data_codewords(text)
    codewords = data + check_codewords(data)
    return min((masked(codewords, mask) for mask in range(8)), key=penalty)


def decode(symbol):
    """The text of a symbol whose every codeword is right; a ValueError where the format or a codeword is not."""
    masks = [mask for mask in range(8) if all(symbol[r][c] == dark for (r, c), dark in format_modules(mask).items())]
    if not masks:
        raise ValueError("the format is damaged")
    bits = "".join("01"[symbol[r][c] ^ MASKS[masks[0]](r, c)] for r, c in data_places())
    words = [int(bits[i : i + 8], 2) for i in range(0, len(bits), 8)]
    if check_codewords(words[:DATA]) != words[DATA:] or not bits.startswith("0010"):
        raise ValueError("a codeword is damaged")
    count, place, text = int(bits[4:13], 2), 13, ""
    while len(text) + 1 < count:
        text += CHARACTERS[int(bits[place : place + 11], 2) // 45] + CHARACTERS[int(bits[place : place + 11], 2) % 45]
        place += 11
    return text + (CHARACTERS[int(bits[place : place + 6], 2)] if count % 2 else "")
