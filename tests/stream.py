"""How a stream of commands of the trace language (docs/TRACE.md) and its answers are read: for tests/alike, tests/settled and tests/limits."""
import struct

# The bytes behind a letter, where they are of fixed number; and the lines of a command, where they are.
FIXED = {"N": 0, "P": 0, "A": 0, "C": 0, "Q": 0, "M": 0, "l": 0, "p": 0, "R": 8, "r": 8, "E": 10, "e": 10, "G": 10, "g": 10, "U": 10, "u": 10,
         "O": 8, "I": 4, "V": 5, "S": 2, "T": 2, "W": 11, "K": 9, "Z": 3, "D": 1}
LINES = {"A": 7, "M": 3, "W": 0, "K": 0, "Z": 0, "F": 0, "Y": 0}


def commands(stream):
    """The commands of a stream, each a letter and the bytes behind it."""
    at = 0
    while at < len(stream):
        letter, start = chr(stream[at]), at + 1
        if letter in "JHLF":
            at = start + 4 + struct.unpack_from("<I", stream, start)[0]
        elif letter == "B":
            at = start + 2 + 4 * struct.unpack_from("<H", stream, start)[0]
        elif letter == "Y":
            at = start + 5 + 8 * struct.unpack_from("<H", stream, start + 3)[0]
        elif letter == "X":
            at = start + 25 + 9 * struct.unpack_from("<H", stream, start + 23)[0]
            at += 2 + 9 * struct.unpack_from("<H", stream, at)[0]
        else:
            at = start + FIXED[letter]
        yield letter, stream[start:at]


def lines_of(letter, answers):
    """The lines that a command prints, from the lines of all commands."""
    if LINES.get(letter) == 0:
        return []
    lines = [next(answers)]
    more = LINES.get(letter, 1) - 1
    if letter in "Pp" and lines[0] != "counts past the tables":
        more = 4
    if letter == "N" and lines[0] != "counts past the tables":
        words = lines[0].split(" ")
        more = int(words[1]) + int(words[4])
    return lines + [next(answers) for _ in range(more)]
