#!/usr/bin/env python3
"""Tests of tools/sheets.py, run as a program as its users run it.

Expectations are document 01's: the words that it prints for the first question, its rows, its layout of words and bytes; request E2's, where values of p or
more are lawful; request E6's for the count of rational abscissas; and request E1's for its two steps. The sheets in crates/ that the programs are run on are
made anew and compared.
"""

import os
import pty
import random
import subprocess
import sys
import tempfile
import unittest

ROOT = os.path.dirname(os.path.dirname(os.path.abspath(__file__)))
TOOL = os.path.join(ROOT, "tools", "sheets.py")

# Document 01's printed answer to its first question, 1009, 1, 3, 265, 877, 3, 46, with the word of request E6 before its end.
PRINTED = "100003f1 20000001 30000003 40000109 5000036d 60000003 7000002e 800003da 80000001 900003b5 900002a6 900003c3 90000001 a0000001 f0000000".split()
HEADER, END = PRINTED[:7], PRINTED[14]
QUESTION = ["1009", "1", "3", "265", "877", "3", "46"]
G = ["-23", "1"]  # x - 23
N = ["949", "678", "963", "1"]  # x^3 + 963x^2 + 678x + 949
COUNT = "1"  # 23 is in the field


def in_bytes(words):
    """Four bytes a word, lowest first."""
    return b"".join(bytes.fromhex(w)[::-1] for w in words)


def run(*arguments, given=b""):
    done = subprocess.run([sys.executable, TOOL, *arguments], input=given, capture_output=True, timeout=60)
    return done.returncode, done.stdout, done.stderr.decode()


def stored(program):
    with open(os.path.join(ROOT, "crates", program, "stdin"), "rb") as file:
        return file.read()


class Making(unittest.TestCase):
    def made(self, *arguments):
        status, out, err = run(*arguments)
        self.assertEqual((status, err), (0, ""))
        return out

    def test_first_question(self):
        self.assertEqual(self.made("question", *QUESTION), in_bytes(HEADER + [END]))
        self.assertEqual(self.made("question", *QUESTION), stored("answer"))

    def test_first_certificate(self):
        self.assertEqual(self.made("certificate", *QUESTION, *G, *N, COUNT), in_bytes(PRINTED))
        self.assertEqual(self.made("certificate", *QUESTION, *G, *N, COUNT), stored("verify"))

    def test_a_negative_value_is_p_more(self):
        self.assertEqual(self.made("certificate", *QUESTION, "986", "1", *N, COUNT), self.made("certificate", *QUESTION, *G, *N, COUNT))

    def test_a_count_is_written_as_it_is(self):
        for count in (0, 2, 1009, 2**28 - 1):
            out = self.made("certificate", *QUESTION, *G, *N, str(count))
            self.assertEqual(out, in_bytes(PRINTED[:13] + [f"{0xa0000000 + count:08x}", END]))

    def test_degree_9(self):
        # Q 1009, 1, 3, 81, 169, 9, 0 has g = x^4 + 2x^2 + 12x + 336; as a kernel sheet it has kinds 1, 2, 3, 6, five of kind 8, end.
        out = self.made("kernel", "1009", "1", "3", "9", "336", "12", "2", "0", "1")
        words = ["100003f1", "20000001", "30000003", "60000009", "80000150", "8000000c", "80000002", "80000000", "80000001", "f0000000"]
        self.assertEqual(out, in_bytes(words))

    def test_composed_certificate(self):
        # Request E1's two steps and the map of degree 9 that they make. Document 01 has its g; N by R2 and the counts of roots are PARI/GP's.
        step = ["1009", "265", "877", "81", "169", "3", "-138", "69", "1", "394", "560", "138", "1", "1"]
        words = "100003f1 20000109 3000036d 40000051 500000a9 60000003 70000367 80000045 80000001 9000018a 90000230 9000008a 90000001 a0000001 f0000000"
        self.assertEqual(self.made("certificate", *step), in_bytes(words.split()))
        g = ["336", "12", "2", "0", "1"]
        n = ["743", "873", "144", "468", "937", "30", "721", "-12", "0", "1"]
        data = self.made("certificate", "1009", "1", "3", "81", "169", "9", "0", *g, *n, "1")
        words = "100003f1 20000001 30000003 40000051 500000a9 60000009 70000000 80000150 8000000c 80000002 80000000 80000001"
        words += " 900002e7 90000369 90000090 900001d4 900003a9 9000001e 900002d1 900003e5 90000000 90000001 a0000001 f0000000"
        self.assertEqual(data, in_bytes(words.split()))
        self.assertEqual(run("show", given=data)[1].decode().splitlines()[0], "certificate, 24 words")

    def test_kernel_sheet_over_11(self):
        self.assertEqual(self.made("kernel", "11", "0", "1", "3", "0", "1"), stored("kernel"))

    def test_points(self):
        # u + 2^28 v, or 2^56
        self.assertEqual(self.made("point", "1008", "1"), (1008 + 2**28).to_bytes(8, "little"))
        self.assertEqual(self.made("point", "1008", "1") + in_bytes(PRINTED), stored("push"))
        self.assertEqual(self.made("point", "268435455", "268435455"), (2**56 - 1).to_bytes(8, "little"))
        self.assertEqual(self.made("point", "infinity"), (2**56).to_bytes(8, "little"))

    def test_wrong_values_are_written(self):
        # p = 1001, l = 6, on a certificate A = p: neighbours that document 01 has refused by the library, so they must be possible.
        self.assertEqual(self.made("question", "1001", *QUESTION[1:])[:4], in_bytes(["100003e9"]))
        self.assertEqual(self.made("question", *QUESTION[:5], "6", "46")[20:24], in_bytes(["60000006"]))
        self.assertEqual(self.made("certificate", "1009", "1009", *QUESTION[2:], *G, *N, COUNT)[4:8], in_bytes(["200003f1"]))

    def test_values_from_p_on_are_written(self):
        # It is for the library to reduce them.
        words = ["1000000b", "2000000b", "3000000c", "4fffffff", "50000006", "60000003", "70000016", "f0000000"]
        self.assertEqual(self.made("question", "11", "11", "12", str(2**28 - 1), "6", "3", "22"), in_bytes(words))
        words = ["1000000b", "2000000b", "3000000c", "60000003", "8000000b", "8000000c", "f0000000"]
        self.assertEqual(self.made("kernel", "11", "11", "12", "3", "11", "12"), in_bytes(words))

    def test_bytes(self):
        self.assertEqual(self.made("bytes", *PRINTED), in_bytes(PRINTED))
        self.assertEqual(run("bytes", given="\n".join(PRINTED).encode())[1], in_bytes(PRINTED))
        self.assertEqual(run("bytes", "-", given="\n".join(PRINTED).encode())[1], in_bytes(PRINTED))


class Reading(unittest.TestCase):
    def shown(self, data, wanted_status=0):
        status, out, err = run("show", given=data)
        self.assertEqual((status, err), (wanted_status, ""))
        return out.decode().splitlines()

    def test_words(self):
        status, out, err = run("words", given=in_bytes(PRINTED))
        self.assertEqual((status, out.decode().split("\n"), err), (0, PRINTED + [""], ""))

    def test_coordinates(self):
        for text, number in (("617 44", 617 + 44 * 2**28), ("3 0", 3), ("0 0", 0), ("infinity", 2**56), ("268435455 268435455", 2**56 - 1)):
            self.assertEqual(run("coordinates", f"{number:016x}"), (0, text.encode() + b"\n", ""))
            self.assertEqual(run("coordinates", given=f"{number:016x}\n".encode()), (0, text.encode() + b"\n", ""))

    def test_show_certificate(self):
        lines = self.shown(in_bytes(PRINTED))
        self.assertEqual(lines[0], "certificate, 15 words")
        names = "p A B A~ B~ l sigma g_0 g_1 N_0 N_1 N_2 N_3 count end".split()
        kinds = [1, 2, 3, 4, 5, 6, 7, 8, 8, 9, 9, 9, 9, 10, 15]
        values = [1009, 1, 3, 265, 877, 3, 46, 1009 - 23, 1, 949, 678, 963, 1, 1, 0]
        wanted = [[str(i), w, n, "kind", str(k), str(v)] for i, (w, n, k, v) in enumerate(zip(PRINTED, names, kinds, values))]
        self.assertEqual([line.split() for line in lines[1:]], wanted)

    def test_show_question_and_kernel_sheet(self):
        lines = self.shown(stored("answer"))
        self.assertEqual([line.split()[2] for line in lines[1:]], "p A B A~ B~ l sigma end".split())
        self.assertEqual(lines[0], "question, 8 words")
        lines = self.shown(stored("kernel"))
        self.assertEqual([line.split()[2] for line in lines[1:]], "p A B l g_0 g_1 end".split())
        self.assertEqual(lines[0], "kernel sheet, 7 words")

    def test_show_point_and_certificate(self):
        lines = self.shown(stored("push"))
        self.assertEqual(lines[0].split(), ["point", f"{1008 + 2**28:016x}", "1008", "1"])
        self.assertEqual(lines[1:], self.shown(in_bytes(PRINTED)))
        # 2^56 is infinity, and a larger number is none of a point.
        self.assertEqual(self.shown((2**56).to_bytes(8, "little") + in_bytes(PRINTED))[0].split()[2], "infinity")
        self.assertIn("no point", self.shown((2**56 + 1).to_bytes(8, "little") + in_bytes(PRINTED), 1)[0])

    def test_show_file(self):
        with tempfile.TemporaryDirectory() as directory:
            name = os.path.join(directory, "sheet.bin")
            with open(name, "wb") as file:
                file.write(in_bytes(PRINTED))
            self.assertEqual(run("show", name)[1].decode().splitlines(), self.shown(in_bytes(PRINTED)))
            self.assertEqual(run("words", name)[1].decode().split(), PRINTED)

    def remarked(self, words, line, text, extra=b""):
        lines = self.shown(in_bytes(words) + extra, 1)
        self.assertIn(text, lines[line])
        return lines

    def changed(self, place, word):
        return PRINTED[:place] + [word] + PRINTED[place + 1 :]

    def test_remarks(self):
        self.remarked(self.changed(1, "30000001"), 2, "kind 2 (A) expected")
        self.remarked(self.changed(8, "90000001"), 9, "kind 8 (g_1) expected")
        self.remarked(self.changed(9, "80000001"), 10, "kind 9 (N_0) expected")
        self.remarked(self.changed(13, "90000001"), 14, "kind 10 (count) expected")
        self.remarked(self.changed(14, "f0000001"), 15, "the end has value 0")
        self.remarked(self.changed(14, "00000000"), 15, "kind 15 (end) expected")
        for place, word in ((1, "200003f2"), (2, "300003f1"), (6, "7fffffff"), (7, "800003f1"), (12, "900003f1")):
            self.remarked(self.changed(place, word), place + 1, "not below p")
        self.remarked(PRINTED + [END], 16, "after the end")
        self.remarked(PRINTED + [END], -1, "16 words, where the certificate has 15")
        self.remarked(PRINTED[:-1], -1, "14 words, where the certificate has 15")
        # The form of before request E6.
        self.remarked(PRINTED[:13] + [END], 14, "kind 10 (count) expected")
        self.remarked(HEADER[:3], -1, "3 words, where the question has 8")
        self.remarked(self.changed(5, "60000006"), -1, "not odd")
        self.remarked(PRINTED, -1, "1 byte left over", b"x")
        self.remarked(HEADER + [END], -1, "3 bytes left over", b"xyz")
        # A remark is on its own line or word and on no other.
        self.assertEqual(sum("<-" in line or "remark" in line for line in self.shown(in_bytes(self.changed(2, "300003f1")), 1)), 1)

    def test_no_remark_on_the_size_of_a_count(self):
        # It is no coefficient; whether it is right is for the library to say.
        for word in ("a0000000", "a00003f1", "afffffff"):
            self.shown(in_bytes(self.changed(13, word)))

    def test_no_remark_where_values_are_reduced(self):
        question = ["1000000b", "2000000b", "3000000c", "4fffffff", "50000011", "60000003", "70000016", "f0000000"]
        kernel = ["1000000b", "2000000b", "3000000c", "60000003", "8000000b", "8000000c", "f0000000"]
        for words in (question, kernel):
            lines = self.shown(in_bytes(words))
            self.assertEqual([int(line.split()[5]) for line in lines[1:]], [int(w[1:], 16) for w in words])
        # p, l and the end are never reduced.
        self.remarked(question[:-1] + ["f000000b"], 8, "the end has value 0")


class RoundTrips(unittest.TestCase):
    def test_words_and_bytes(self):
        drawn = random.Random(1)
        for count in (1, 2, 8, 15, 24, 393):
            data = drawn.randbytes(4 * count)
            self.assertEqual(run("bytes", given=run("words", given=data)[1])[1], data)

    def test_values(self):
        """What show gives as values, made into a sheet again, is the sheet."""
        drawn = random.Random(2)
        for degree in (3, 5, 9, 255):
            d = (degree - 1) // 2
            header = [268435399] + [drawn.randrange(268435399) for _ in range(4)] + [degree, drawn.randrange(268435399)]
            rest = [drawn.randrange(268435399) for _ in range(3 * d + 3)]
            for command, values in (
                ("question", header),
                ("certificate", header + rest + [drawn.randrange(2**28)]),
                ("kernel", [header[0], header[1], header[2], degree] + rest[: d + 1]),
            ):
                arguments = [str(v) for v in values]
                status, data, _ = run(command, *arguments)
                self.assertEqual(status, 0)
                status, shown, _ = run("show", given=data)
                self.assertEqual(status, 0)
                self.assertEqual([line.split()[5] for line in shown.decode().splitlines()[1:]], arguments + ["0"])
                wanted = {"question": 8, "certificate": 3 * d + 12, "kernel": d + 6}[command]
                self.assertEqual(len(data), 4 * wanted)

    def test_points(self):
        drawn = random.Random(3)
        for _ in range(5):
            u, v = drawn.randrange(2**28), drawn.randrange(2**28)
            number = int.from_bytes(run("point", str(u), str(v))[1], "little")
            self.assertEqual(run("coordinates", f"{number:016x}")[1].decode(), f"{u} {v}\n")


class Errors(unittest.TestCase):
    def wrong(self, text, *arguments, given=b""):
        status, out, err = run(*arguments, given=given)
        self.assertEqual((status, out), (2, b""))
        self.assertTrue(err.startswith("sheets.py: "), err)
        self.assertEqual(err.count("\n"), 1, err)
        self.assertIn(text, err)

    def test_commands(self):
        self.wrong("a command is missing")
        self.wrong("is no command", "shwo")

    def test_help(self):
        for argument in ("help", "--help", "-h"):
            status, out, err = run(argument)
            self.assertEqual((status, err), (0, ""))
            for command in "question kernel certificate point bytes words show coordinates".split():
                self.assertIn(f"sheets.py {command}", out.decode())

    def test_counts(self):
        self.wrong("7 values", "question", *QUESTION[:6])
        self.wrong("7 values", "question", *QUESTION, "1")
        self.wrong("takes 2 coefficients of g, and 1 were given", "kernel", "11", "0", "1", "3", "0")
        self.wrong("takes 2 coefficients of g, and 3 were given", "kernel", "11", "0", "1", "3", "0", "0", "1")
        self.wrong("2 coefficients of g, 4 of N and the count, 7 in all, and 5 were given", "certificate", *QUESTION, *G, *N[:3])
        self.wrong("7 in all, and 6 were given", "certificate", *QUESTION, *G, *N)
        self.wrong("7 in all, and 8 were given", "certificate", *QUESTION, *G, *N, COUNT, COUNT)
        self.wrong("even", "kernel", "11", "0", "1", "4", "0", "1")
        self.wrong("two numbers", "point", "1")
        self.wrong("two numbers", "point", "1", "2", "3")
        self.wrong("one file", "show", "a", "b")
        self.wrong("one number", "coordinates", "0" * 16, "0" * 16)

    def test_values(self):
        self.wrong("no decimal number", "question", "x", *QUESTION[1:])
        self.wrong("no decimal number", "question", "", *QUESTION[1:])
        self.wrong("no decimal number", "question", "0x3f1", *QUESTION[1:])
        self.wrong("no decimal number", "question", "1_009", *QUESTION[1:])
        self.wrong("no decimal number", "question", "-", *QUESTION[1:])
        self.wrong("no decimal number", "question", "\u0661", *QUESTION[1:])
        self.wrong("does not fit", "question", "268435456", *QUESTION[1:])
        self.wrong("does not fit", "question", "-1", *QUESTION[1:])
        self.wrong("does not fit", "question", "1009", "-1009", *QUESTION[2:])
        self.wrong("count = -1 does not fit", "certificate", *QUESTION, *G, *N, "-1")
        self.wrong("does not fit", "point", "268435456", "0")
        self.wrong("does not fit", "point", "1", "9" * 6000)
        self.wrong("no word of 8", "bytes", "100003f")
        self.wrong("no word of 8", "bytes", "100003fg")
        self.wrong("no number of 16", "coordinates", "269")
        self.wrong("no point", "coordinates", f"{2**56 + 1:016x}")

    def test_inputs(self):
        self.wrong("is empty", "show")
        self.wrong("is empty", "words")
        self.wrong("is empty", "bytes")
        self.wrong("blank", "bytes", given=b"\n")
        self.wrong("no multiple of four", "words", given=b"abcde")
        self.wrong("refused 11", "bytes", given=b"refused 11\n")
        self.wrong("refused 12", "coordinates", given=b"refused 12\n")
        self.wrong("no text", "bytes", given=b"\xff\xff\xff\xff")
        self.wrong("No such file", "show", "/no/such/file")
        self.wrong("Is a directory", "show", "/")
        self.wrong("more than", "show", given=bytes(2**20 + 1))

    def test_no_bytes_to_a_terminal(self):
        leader, follower = pty.openpty()
        done = subprocess.run([sys.executable, TOOL, "question", *QUESTION], stdout=follower, stderr=subprocess.PIPE, timeout=60)
        os.close(follower)
        os.close(leader)
        self.assertEqual(done.returncode, 2)
        self.assertIn("not for a terminal", done.stderr.decode())


if __name__ == "__main__":
    unittest.main()
