"""Document 01, "Window" to "Metadata" and "Pins", read a second time, in Python. Each reader answers a list of numbers: its number first."""

TOP_ADDRESS = 2**32 - 1
NONE = 0xFFFFFFFF


def u16(s, at):
    return s[at] | s[at + 1] << 8


def u32(s, at):
    return u16(s, at) | u16(s, at + 2) << 16


def flag(s, at):
    return int(s[at] != 0)


def read(image, base, a, n):
    """The n bytes at address a, or None where the read fails. An image may note its reads (opening.py)."""
    if not isinstance(image, bytes):
        return image.read(base, a, n)
    if base <= a <= TOP_ADDRESS and a + n <= base + len(image):
        return image[a - base : a - base + n]
    return None


def width_of(s):
    """The code points of a string, by Python's own decoder (document 02, wish 3); None where it is not UTF-8."""
    try:
        return len(s.decode("utf-8", "strict"))
    except UnicodeDecodeError:
        return None


def string(image, base, pointer):
    """number, offset, length, width"""
    if pointer < base:
        return [3, 0, 0, 0]
    found = b""
    for chunk in range(16):
        bs = read(image, base, pointer + 64 * chunk, 64)
        if bs is None:
            return [2, 0, 0, 0]
        if 0 in bs:
            found += bs[: bs.index(0)]
            width = width_of(found)
            return [21, 0, 0, 0] if width is None else [0, pointer - base, len(found), width]
        found += bs
    return [20, 0, 0, 0]


def string_call(image, base, pointer):
    """The exported call checks the base that it is given."""
    return [1, 0, 0, 0] if base + len(image) > 2**32 else string(image, base, pointer)


def header(image, flash_base, info_offset):
    """number; version, commit, line, storage, frequency, seven flags, counting, boot config; date, revision, count, sets, pins, extra"""
    none = [0] * 33
    s = read(image, flash_base, flash_base + info_offset, 64)
    if s is None:
        return [2] + none
    if s[:4] != b"SDRR":
        return [10] + none
    if u16(s, 28) > 5:
        return [11] + none
    if u16(s, 30) > 7:
        return [12] + none
    version = [u16(s, 4), u16(s, 6), u16(s, 8), u16(s, 10)]
    if version >= [0, 7, 0, 0]:
        return [13] + none
    extra = NONE if version < [0, 4, 0, 0] else u32(s, 56)
    out = [0] + version + list(s[16:24]) + [u16(s, 28), u16(s, 30), u16(s, 32)] + [flag(s, at) for at in range(34, 41)]
    out += [flag(s, 42)] + list(s[52:56]) + [u32(s, 12), u32(s, 24), s[41], u32(s, 44), u32(s, 48), extra]
    assert len(out) == 34
    return out


def extra_info(image, base, pointer, version):
    """number; RTT pointer, DFU, USB port, VBUS pin, PIO default (2: not given), runtime pointer"""
    if pointer < base:
        return [3, 0, 0, 0, 0, 2, NONE]
    s = read(image, base, pointer, 256)
    if s is None:
        return [2, 0, 0, 0, 0, 2, NONE]
    return [0, u32(s, 0), flag(s, 4), s[5] if s[5] <= 5 else 0, s[6], flag(s, 7) if version >= [0, 6, 0, 0] else 2, u32(s, 8)]


def metadata(image, base, pointer):
    """number, set count, sets pointer"""
    if pointer < base:
        return [3, 0, 0]
    s = read(image, base, pointer, 256)
    if s is None:
        return [2, 0, 0]
    if s[:16] != b"ONEROM_METADATA\0":
        return [30, 0, 0]
    if u32(s, 16) != 1:
        return [31, 0, 0]
    if s[20] > 0 and u32(s, 24) == 0:
        return [32, 0, 0]
    return [0, s[20], u32(s, 24)]


def pins(image, base, pointer):
    """number; five ports, ROM pins, data, address, CS1..3, reserved, X1, X2, CE, OE, X pull, SWCLK, SWDIO, sel, sel pull, status, extended,
    data2, addr2"""
    none = [0] * 77
    if pointer < base:
        return [3] + none
    s = read(image, base, pointer, 88)
    if s is None:
        return [2] + none
    if max(s[0:5]) > 5:
        return [50] + none
    second = list(s[64:88]) if s[63] == 1 else [0] * 24
    out = [0] + list(s[0:6]) + list(s[8:32]) + list(s[36:47]) + list(s[50:61]) + [s[63]] + second
    assert len(out) == 78
    return out
