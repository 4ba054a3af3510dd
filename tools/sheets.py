#!/usr/bin/env python3
"""Sheets as text and back: makes the bytes of questions, kernel sheets, certificates and point numbers, and shows what is in a sheet.

  sheets.py question P A B A~ B~ L SIGMA               the bytes of a question
  sheets.py kernel P A B L G0 .. GD                    the bytes of a kernel sheet; D = (L - 1)/2
  sheets.py certificate P A B A~ B~ L SIGMA G0 .. GD N0 .. NE COUNT    the bytes of a certificate; E = 2 D + 1
  sheets.py point U V | point infinity                 the eight bytes of a point's number
  sheets.py bytes [WORD ..]                            the bytes of words of eight hexadecimal digits
  sheets.py words [FILE]                               the words of a sheet, eight hexadecimal digits each
  sheets.py show [FILE]                                every word with its name, kind and value, and remarks on the form
  sheets.py coordinates [NUMBER]                       the coordinates in a point's number of sixteen hexadecimal digits

Numbers are decimal. Coefficients go from the constant term up; COUNT is how many u from 0 to P - 1 have g(u) = 0. A negative value stands for itself plus
P, but none stands for a P, L or COUNT. Bytes go to standard output. Where FILE, WORD or NUMBER is left out or is -, standard input is read. Wrong values (a P
that is no prime, a COUNT that is not right) are written as they are: it is the library that judges a sheet. A value of P or more is written as it is, too: on
a question or a kernel sheet the library takes it modulo P, a certificate with one it refuses, and show has a remark, though not on COUNT. Show takes a sheet,
or a point's number with a certificate after it, which is what the push program reads.

Exit status: 0, or 1 if show has a remark, or 2 if the arguments or the input are wrong.

The installed program is called sagepliers-sheets. The layout is that of document 01, with request E6's word for the count: a word has 32 bits, its kind in
the top four and its value in the low 28; in bytes the lowest comes first.
"""

import os
import sys

VALUE_BITS = 28
INFINITY = 1 << 56
COUNT = 10  # of the u from 0 to p - 1 with g(u) = 0: a plain number, which question 6 does not bound
END = 15
NAMES = {1: "p", 2: "A", 3: "B", 4: "A~", 5: "B~", 6: "l", 7: "sigma", 8: "g", 9: "N", COUNT: "count", END: "end"}
HEADERS = {"question": (1, 2, 3, 4, 5, 6, 7), "certificate": (1, 2, 3, 4, 5, 6, 7), "kernel sheet": (1, 2, 3, 6)}
CURVES = (2, 3, 4, 5, 7)  # kinds whose values are residues modulo p, as those of g and N are
LONGEST_INPUT = 1 << 20
PROGRAM = os.path.basename(sys.argv[0])  # sheets.py, or sagepliers-sheets where it is installed


class Wrong(Exception):
    """The arguments or the input are wrong; the text says how."""


# Words


def word(kind, value):
    return kind << VALUE_BITS | value


def kind_of(w):
    return w >> VALUE_BITS


def value_of(w):
    return w & ((1 << VALUE_BITS) - 1)


def to_bytes(words):
    return b"".join(w.to_bytes(4, "little") for w in words)


def from_bytes(data):
    """The whole words of the bytes, and how many bytes are left over."""
    whole = len(data) - len(data) % 4
    return [int.from_bytes(data[i : i + 4], "little") for i in range(0, whole, 4)], len(data) - whole


# Numbers in text


def decimal(text, name):
    digits = text[1:] if text.startswith("-") else text
    if not (digits.isascii() and digits.isdigit()):
        raise Wrong(f"{name}: {text!r} is no decimal number")
    if len(digits) > 20:
        raise Wrong(f"{name}: a number of {len(digits)} digits does not fit a word")
    return int(text)


def plain_value(text, name):
    value = decimal(text, name)
    if not 0 <= value < 1 << VALUE_BITS:
        raise Wrong(f"{name} = {text} does not fit a word: a value is from 0 to 2^28 - 1")
    return value


def residue(text, name, p):
    value = decimal(text, name)
    if -p < value < 0:
        return value + p
    if not 0 <= value < 1 << VALUE_BITS:
        raise Wrong(f"{name} = {text} does not fit a word: a value is from -(p - 1) to 2^28 - 1")
    return value


def hexadecimal(text, digits, what):
    if len(text) != digits or any(c not in "0123456789abcdefABCDEF" for c in text):
        raise Wrong(f"{text!r} is no {what} of {digits} hexadecimal digits")
    return int(text, 16)


# Making sheets


def header(form, texts):
    """The words before any coefficients, from the texts of their values in order; and p and l."""
    kinds = HEADERS[form]
    if len(texts) < len(kinds):
        names = " ".join(NAMES[k] for k in kinds)
        raise Wrong(f"a {form} starts with {len(kinds)} values ({names}), and {len(texts)} were given")
    p = plain_value(texts[0], "p")
    values = [residue(t, NAMES[k], p) if k in CURVES else plain_value(t, NAMES[k]) for k, t in zip(kinds, texts)]
    return [word(k, v) for k, v in zip(kinds, values)], p, values[kinds.index(6)]


def half(degree):
    """d = (l - 1)/2, which an even l does not have."""
    if degree % 2 == 0:
        raise Wrong(f"l = {degree} is even, so it fixes no count of coefficients; the command bytes writes any words")
    return (degree - 1) // 2


def coefficients(kind, texts, p):
    return [word(kind, residue(t, f"{NAMES[kind]}_{i}", p)) for i, t in enumerate(texts)]


def question(texts):
    words, _, _ = header("question", texts)
    if len(texts) > len(words):
        raise Wrong(f"a question has 7 values, and {len(texts)} were given")
    return words + [word(END, 0)]


def kernel(texts):
    words, p, degree = header("kernel sheet", texts)
    g = texts[len(words) :]
    wanted = half(degree) + 1
    if len(g) != wanted:
        raise Wrong(f"l = {degree} takes {wanted} coefficients of g, and {len(g)} were given")
    return words + coefficients(8, g, p) + [word(END, 0)]


def certificate(texts):
    words, p, degree = header("certificate", texts)
    rest = texts[len(words) :]
    d = half(degree)
    if len(rest) != 3 * d + 4:
        raise Wrong(f"l = {degree} takes {d + 1} coefficients of g, {2 * d + 2} of N and the count, {3 * d + 4} in all, and {len(rest)} were given")
    count = word(COUNT, plain_value(rest[-1], NAMES[COUNT]))
    return words + coefficients(8, rest[: d + 1], p) + coefficients(9, rest[d + 1 : -1], p) + [count, word(END, 0)]


def point(texts):
    """The number of a point: u + 2^28 v, or 2^56."""
    if texts == ["infinity"]:
        return INFINITY
    if len(texts) != 2:
        raise Wrong("a point is two numbers u v, or infinity")
    return plain_value(texts[0], "u") + (plain_value(texts[1], "v") << VALUE_BITS)


def coordinates(number):
    if number > INFINITY:
        raise Wrong(f"{number:016x} is above 2^56 and so the number of no point")
    if number == INFINITY:
        return "infinity"
    return f"{value_of(number)} {number >> VALUE_BITS}"


# Showing sheets


def form_of(words):
    """The form that the kinds look like most. The fourth word tells a kernel sheet, the eighth a question from a certificate."""
    kinds = [kind_of(w) for w in words]
    if len(kinds) > 3 and kinds[3] == 6:
        return "kernel sheet"
    if len(kinds) > 7 and kinds[7] in (8, 9):
        return "certificate"
    return "question" if len(kinds) <= 9 else "certificate"


def layout(form, words):
    """The kinds that the form wants, in order, and their names; and a remark if l does not fix a count."""
    kinds = HEADERS[form]
    wanted = [(k, NAMES[k]) for k in kinds]
    if form != "question":
        place = kinds.index(6)
        degree = value_of(words[place]) if len(words) > place and kind_of(words[place]) == 6 else None
        if degree is None or degree % 2 == 0 or not 3 <= degree <= 255:
            return wanted, "l is missing or not odd from 3 to 255, so the count of coefficients is not fixed"
        d = (degree - 1) // 2
        wanted += [(8, f"g_{i}") for i in range(d + 1)]
        if form == "certificate":
            wanted += [(9, f"N_{i}") for i in range(2 * d + 2)] + [(COUNT, NAMES[COUNT])]
    return wanted + [(END, "end")], None


def show(data):
    """Lines that show the bytes of a sheet, or of a point's number and a certificate, and whether there is a remark."""
    words, left = from_bytes(data)
    lines = []
    remarks = 0

    # The second word of a point's number has kind 0, as no word of a sheet has; the certificate's p comes next.
    if len(words) > 2 and kind_of(words[1]) == 0 and kind_of(words[2]) == 1:
        number = words[0] | words[1] << 32
        no_point = number > INFINITY
        lines.append(f"point  {number:016x}  " + ("<- no point has a number above 2^56" if no_point else coordinates(number)))
        remarks += no_point
        words = words[2:]

    form = form_of(words)
    wanted, unfixed = layout(form, words)
    lines.append(f"{form}, {len(words)} word{'' if len(words) == 1 else 's'}")
    p = value_of(words[0]) if words and kind_of(words[0]) == 1 else None
    for i, w in enumerate(words):
        kind, value = kind_of(w), value_of(w)
        expected, name = wanted[i] if i < len(wanted) else (None, "?")
        remark = ""
        if expected is None:
            remark = "" if unfixed else "after the end"
            name = NAMES.get(kind, "?") if unfixed else name
        elif kind != expected:
            remark = f"kind {expected} ({name}) expected"
            name = "?"
        elif kind == END and value != 0:
            remark = "the end has value 0"
        elif form == "certificate" and kind in CURVES + (8, 9) and p is not None and value >= p:
            remark = "not below p"
        remarks += remark != ""
        lines.append(f"{i:3}  {w:08x}  {name:<5}  kind {kind:<2}  {value}" + (f"  <- {remark}" if remark else ""))

    last = []
    if unfixed:
        last.append(unfixed)
    elif len(words) != len(wanted):
        last.append(f"{len(words)} words, where the {form} has {len(wanted)}")
    if left:
        last.append(f"{left} byte{'' if left == 1 else 's'} left over: a word has four")
    lines += [f"remark: {text}" for text in last]
    return lines, remarks + len(last) > 0


# Files and arguments


def read_bytes(texts):
    if len(texts) > 1:
        raise Wrong("one file at most")
    name = texts[0] if texts else "-"
    try:
        if name == "-":
            data = sys.stdin.buffer.read(LONGEST_INPUT + 1)
        else:
            with open(name, "rb") as file:
                data = file.read(LONGEST_INPUT + 1)
    except OSError as error:
        raise Wrong(f"cannot read {name}: {error.strerror}") from None
    shown = "standard input" if name == "-" else name
    if not data:
        raise Wrong(f"{shown} is empty")
    if len(data) > LONGEST_INPUT:
        raise Wrong(f"{shown} has more than {LONGEST_INPUT} bytes, and so is no sheet")
    return data


def read_texts(texts):
    """The arguments, or the words of standard input where there are none."""
    if texts and texts != ["-"]:
        return texts
    try:
        found = read_bytes(["-"]).decode("ascii").split()
    except UnicodeDecodeError:
        raise Wrong("standard input is no text of hexadecimal digits") from None
    if found[:1] == ["refused"]:
        raise Wrong("standard input is no answer but a refusal: " + " ".join(found))
    if not found:
        raise Wrong("standard input is blank")
    return found


def put_bytes(data):
    if sys.stdout.isatty():
        raise Wrong("the answer is bytes and not for a terminal: send it to a file or a program")
    sys.stdout.buffer.write(data)


def run(arguments):
    if not arguments:
        raise Wrong(f"a command is missing; {PROGRAM} help lists them")
    command, texts = arguments[0], arguments[1:]
    if command in ("help", "--help", "-h"):
        print(__doc__.strip())
    elif command in ("question", "kernel", "certificate"):
        put_bytes(to_bytes({"question": question, "kernel": kernel, "certificate": certificate}[command](texts)))
    elif command == "point":
        put_bytes(point(texts).to_bytes(8, "little"))
    elif command == "bytes":
        put_bytes(to_bytes([hexadecimal(t, 8, "word") for t in read_texts(texts)]))
    elif command == "words":
        words, left = from_bytes(read_bytes(texts))
        if left:
            raise Wrong(f"the count of bytes is no multiple of four: {left} left over")
        for w in words:
            print(f"{w:08x}")
    elif command == "show":
        lines, remarked = show(read_bytes(texts))
        print("\n".join(lines))
        return 1 if remarked else 0
    elif command == "coordinates":
        found = read_texts(texts)
        if len(found) != 1:
            raise Wrong("one number is wanted")
        print(coordinates(hexadecimal(found[0], 16, "number")))
    else:
        raise Wrong(f"{command!r} is no command; {PROGRAM} help lists them")
    return 0


def main():
    try:
        status = run(sys.argv[1:])
        sys.stdout.flush()
    except Wrong as wrong:
        print(f"{PROGRAM}: {wrong}", file=sys.stderr)
        status = 2
    except BrokenPipeError:
        # The reader has gone, as head does; nothing is left to say, also not by the interpreter at its end.
        os.dup2(os.open(os.devnull, os.O_WRONLY), sys.stdout.fileno())
        status = 2
    except OSError as error:
        print(f"{PROGRAM}: cannot write: {error.strerror}", file=sys.stderr)
        os.dup2(os.open(os.devnull, os.O_WRONLY), sys.stdout.fileno())
        status = 2
    return status


if __name__ == "__main__":
    sys.exit(main())
