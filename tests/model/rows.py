"""How many words a lent row has. Another reader's answers to document 01 have ROM rows of seven words, without the width that wish 3 of document 02
puts behind them: here such rows, as lent, are made rows of eight."""
SET_WORDS, ROM_WORDS = 8, 8
# the width's place, and so the words of a row without one
NAME_WIDTH = NARROW = 7


def words(sets, roms):
    """The lengths of buffers for so many rows."""
    return SET_WORDS * sets, ROM_WORDS * roms


def widened_length(n):
    """A word more for each whole row; what follows the last one stays."""
    return n + n // NARROW


def widened(roms):
    """A width behind each whole row."""
    out = []
    for at in range(0, len(roms), NARROW):
        row = roms[at : at + NARROW]
        out += row + [0] * (len(row) // NARROW)
    return out


def narrow(rows):
    """Rows without their widths, one after the other."""
    return [word for row in rows for word in row[:NARROW]]
