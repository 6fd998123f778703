"""Tests of bib.py: `KNURRAVOE_LIB=FOLDER python3 host/python/test_bib.py`, where FOLDER has libbib.so and libbibcheck.so."""

import json
import pathlib
import re
import subprocess
import unittest

import bib
from bib import Chunk, Kind, Refusal


class Reading(unittest.TestCase):
    def test_rows(self):
        want = ((1, 0, 0, 5), (2, 0, 1, 2), (3, 0, 3, 4))
        self.assertEqual(bib.read(b"@a{k,}"), want)
        self.assertEqual(bib.read(bytearray(b"@a{k,}")), want)
        self.assertEqual(bib.read(b""), ())
        row = bib.read(b"@a{k,}")[2]
        self.assertEqual((row.kind, row.start, row.end), (Kind.KEY, 3, 4))

    def test_rows_are_numbers(self):
        rows = bib.read(b"@a{k,}@b{l,}")
        self.assertEqual((len(rows), rows[0], rows[-1]), (6, (1, 0, 0, 5), (3, 0, 9, 10)))
        self.assertEqual(rows[3].kind, Kind.ENTRY)
        self.assertEqual(rows[3:], ((1, 0, 6, 11), (2, 0, 7, 8), (3, 0, 9, 10)))
        self.assertEqual(rows[::3], (rows[0], rows[3]))
        self.assertEqual(rows[4:2], ())
        self.assertEqual(list(rows.numbers[:8]), [1, 0, 0, 5, 2, 0, 1, 2])
        self.assertEqual((rows == bib.read(b"@a{k,}@b{l,}"), rows == rows[:5], rows == 5), (True, False, False))
        self.assertEqual(hash(rows), hash(tuple(rows)))
        self.assertEqual(repr(rows[:1]), "Rows([(1, 0, 0, 5)])")
        with self.assertRaises(IndexError):
            rows[6]
        with self.assertRaises(TypeError):
            rows.numbers[0] = 2

    def test_only_bytes(self):
        calls = [bib.read, bib.salvage, bib.unpack, lambda file: bib.resolve_file(file, (), ())]
        calls += [lambda file: bib.resolve_literal(file, 0, 0, False), lambda file: bib.resolve_field(file, (), 0, False)]
        calls += [lambda text: bib.format_verbatim(text, ()), lambda text: bib.format_sentence(text, ())]
        calls += [lambda text: bib.to_biblatex_string(text, (), False), bib.check]
        for call in calls:
            for given in (5, "@a{k,}", None, [64]):
                with self.assertRaisesRegex(TypeError, "give the bytes of a file, .* not " + type(given).__name__):
                    call(given)
        for given in (memoryview(b"@a{k,}"), memoryview(b"@.a.{.k.,.}")[::2]):
            self.assertEqual(bib.read(given), bib.read(b"@a{k,}"))

    def test_only_rows(self):
        """Rows of a wrong type, and rows of chunks for rows of a file, are no rows; rows of a wrong length are bad ones."""
        rows, chunks = bib.read(b"@a{k,}"), bib.resolve_literal(b"x", 0, 1, False).chunks
        for given in (5, "@a{", None, b"@a{k", [5], [None], ["abcd"], [(1, 0, 0, "5")], [(1, 0, 0, 5.0)], chunks):
            calls = [bib.pack, lambda rows: bib.resolve_field(b"", rows, 0, False), lambda rows: bib.resolve_file(b"", rows, ())]
            for call in calls:
                with self.assertRaisesRegex(TypeError, "give Rows, or rows of 4 whole numbers: "):
                    call(given)
        for given in (5, "@a{", None, [5], [(0, 0, 0, 0, "0")], rows):
            calls = [lambda rows: bib.format_verbatim(b"", rows), lambda rows: bib.format_sentence(b"", rows)]
            for call in calls + [lambda rows: bib.to_biblatex_string(b"", rows, False)]:
                with self.assertRaisesRegex(TypeError, "give ChunkRows, or rows of 5 whole numbers: "):
                    call(given)
        with self.assertRaises(Refusal):
            bib.pack([(9, 0, 0), (4, 10, 7, 4, 4)])
        self.assertEqual(bib.Rows(rows.numbers), rows)
        for given in (5, b"1234", rows.numbers[:3]):
            with self.assertRaises(TypeError):
                bib.Rows(given)

    def test_other_arguments(self):
        """Numbers are whole, what is true or false is one of the two, and what comes in pairs does."""
        file = b"@a{k,t={x}}"
        rows = bib.read(file)
        for given in ("0", None, 1.0, b"0", [0]):
            calls = [lambda: bib.resolve_literal(file, given, 9, False), lambda: bib.resolve_literal(file, 8, given, False)]
            calls += [lambda: bib.resolve_field(file, rows, given, False), lambda: bib.check(file, limit=given)]
            for call in calls:
                with self.assertRaisesRegex(TypeError, "give a whole number as .*, not " + type(given).__name__):
                    call()
        for given in ("no", None, 2, [0]):
            calls = [lambda: bib.resolve_literal(file, 8, 9, given), lambda: bib.to_biblatex_string(b"", (), given)]
            calls += [lambda: bib.resolve_field(file, rows, 4, given), lambda: bib.resolve_file(file, rows, [given])]
            for call in calls + [lambda: bib.check(file, resolve=given)]:
                with self.assertRaisesRegex(TypeError, "give True or False as "):
                    call()
        for given in (5, None, "abab", ["ab"], [("a",)], [5], [("a", "b", "c")], [(5, b"")]):
            calls = [lambda: bib.check(file, strings=given), lambda: bib.resolve_field(file, rows, 4, False, given)]
            for call in calls + [lambda: bib.resolve_file(file, rows, [False], given)]:
                with self.assertRaisesRegex(TypeError, "give (months as pairs|strings as pairs|a text, not int)"):
                    call()
        with self.assertRaisesRegex(TypeError, "give a text, not NoneType"):
            bib.check(file, name=None)
        for given in (0, -1):
            with self.assertRaises(ValueError):
                bib.check(file, limit=given)
        self.assertEqual(bib.check(file, limit=1 << 70), ())

    def test_salvage(self):
        rows = bib.salvage(b"@a{\n@b{k,}")
        self.assertEqual([row.kind for row in rows], [9, 10, 1, 2, 3])
        self.assertEqual(rows[1], (Kind.CAUSE, 7, 4, 4))
        self.assertEqual(len(bib.salvage(b"@\n@\n@")), 6)

    def test_causes(self):
        """A cause is the character that is wrong; at its piece's end it is empty, though the file goes on."""
        for culprit in ("x", "é", "漢", "😀", ""):
            piece = f"@a{{k {culprit}\n".encode()
            rows = bib.salvage("é\n".encode() + piece + b"@b{k,}")
            start = 8 if culprit else 3 + len(piece)
            want = (Kind.CAUSE, 7, start, start + len(culprit.encode()))
            self.assertEqual([row for row in rows if row.kind == Kind.CAUSE], [want])

    def test_refusals(self):
        cases = [(b"@a{k}", 7, 4, 5), (b"@a{k,t=}", 3, 7, 8), (b"@a{k,y=1.2.3}", 10, 10, 11), (b"@a{k,y=12", 3, 9, 9)]
        cases += [(f"@a{{k {c},}}".encode(), 7, 5, end) for c, end in [("é", 7), ("漢", 8), ("😀", 9)]] + [(b"a\xff", 2, 1, 1)]
        for file, *want in cases:
            with self.assertRaises(Refusal) as caught:
                bib.read(file)
            refusal = caught.exception
            self.assertEqual([refusal.number, refusal.start, refusal.end], want)
        self.assertEqual(str(refusal), "bytes that are not UTF-8 at byte 1 (refusal 2)")

    def test_longest(self):
        self.assertEqual(bib.read(bytes(bib.MOST_BYTES)), ())
        for reading in (bib.read, bib.salvage):
            with self.assertRaises(Refusal) as caught:
                reading(bytes(bib.MOST_BYTES + 1))
            self.assertEqual(caught.exception.number, 1)


class Packing(unittest.TestCase):
    def test_both_ways(self):
        rows = bib.salvage(b"@a{\n@b{k, t = {x} # y}\n@string{y = 1}")
        packed = bib.pack(rows)
        self.assertEqual(len(packed), 7 * len(rows))
        self.assertEqual(bib.unpack(packed), rows)
        self.assertEqual(bib.pack([]), b"")
        self.assertEqual(bib.unpack(b""), ())
        self.assertEqual(bib.pack([(9, 0, 0, 4), (10, 7, 4, 4)]).hex(), "9000000000000" + "4a7000004000000")

    def test_refusals(self):
        for rows in ([(1, 0, 0, 5)], [(1, 0, 0)], [(1, 0, 0, -1)], [(0, 0, 5, 4)]):
            with self.assertRaises(Refusal) as caught:
                bib.pack(rows)
            self.assertEqual(caught.exception.number, 17)
        with self.assertRaises(Refusal):
            bib.unpack(b"123456")


class Writing(unittest.TestCase):
    TEXT = "a_\n bé".encode()
    CHUNKS = [(Chunk.NORMAL, 0, 3, 0, 0), (Chunk.VERBATIM, 1, 2, 0, 0), (Chunk.MATH, 5, 7, 0, 0)]

    def test_answers(self):
        self.assertEqual(bib.format_verbatim(self.TEXT, self.CHUNKS), "a_ _$é$")
        self.assertEqual(bib.to_biblatex_string(self.TEXT, self.CHUNKS, False), "{a\\_\n{\\_$é$}}")
        self.assertEqual(bib.to_biblatex_string(self.TEXT, self.CHUNKS, True), "{a_\n{_$é$}}")
        self.assertEqual(bib.format_sentence(self.TEXT, self.CHUNKS), "A_ _$é$")
        self.assertEqual(bib.format_verbatim(b"", []), "")
        self.assertEqual(bib.format_sentence(b"", []), "")
        self.assertEqual(bib.to_biblatex_string(b"", [], False), "{}")

    def test_most_bytes(self):
        """Every byte is doubled, and every chunk opens or closes the extra brace."""
        written = bib.to_biblatex_string(b"}", [(1, 0, 1, 0, 0), (0, 0, 1, 0, 0)] * 9, False)
        self.assertEqual(written, "{" + "{\\}}\\}" * 9 + "}")
        self.assertEqual(bib.format_verbatim(b"x", [(2, 0, 1, 0, 0)] * 9), "$x$" * 9)
        self.assertEqual(bib.format_sentence("ΐ".encode(), [(0, 0, 2, 0, 0)]), "\u0399\u0308\u0301")
        self.assertEqual(bib.format_sentence("İ".encode(), [(0, 0, 2, 0, 0)] * 9), "İ" + "i\u0307" * 8)

    def test_sentences(self):
        """Of what may surprise, each case worked out by hand from src/chunk.rs."""
        normal, verbatim, math = Chunk.NORMAL, Chunk.VERBATIM, Chunk.MATH
        cases = [
            ([(normal, "the "), (verbatim, "NASA"), (normal, " Archive")], "The NASA archive"),
            ([(normal, ""), (normal, "Abc")], "abc"),
            ([(math, ""), (normal, "Abc")], "$$abc"),
            ([(normal, "\nAbc")], " abc"),
            ([(verbatim, "X "), (normal, "\r\nB")], "X b"),
            ([(normal, "a "), (math, "X"), (normal, "\nB")], "A $X$b"),
            ([(normal, "a "), (verbatim, ""), (normal, "\nB")], "A  b"),
            ([(normal, "ßŉΣ")], "SSŉσ"),
        ]
        for parts, want in cases:
            text, chunks = b"", []
            for kind, part in parts:
                chunks.append((kind, len(text), len(text) + len(part.encode()), 0, 0))
                text += part.encode()
            self.assertEqual(bib.format_sentence(text, chunks), want)
        resolved = bib.resolve_literal(b"{On} Its {OWN} Terms", 0, 20, False)
        self.assertEqual(bib.format_sentence(resolved.text, resolved.chunks), "On its OWN terms")

    def test_refusals(self):
        bad = [[(3, 0, 1, 0, 0)], [(0, 2, 1, 0, 0)], [(0, 0, 8, 0, 0)], [(0, 5, 6, 0, 0)], [(0, 0, 1, 0)], [(0, 0, -1, 0, 0)]]
        cases = [(self.TEXT, rows, 17, 0) for rows in bad] + [(b"a\xff", rows, 2, 1) for rows in bad + [self.CHUNKS]]
        for text, rows, number, place in cases:
            for call in (bib.format_verbatim, bib.format_sentence, lambda text, rows: bib.to_biblatex_string(text, rows, True)):
                with self.assertRaises(Refusal) as caught:
                    call(text, rows)
                refusal = caught.exception
                self.assertEqual((refusal.number, refusal.start, refusal.end), (number, place, place))


class Resolving(unittest.TestCase):
    def test_answers(self):
        resolved = bib.resolve_literal("é{\\'e} --$x$é".encode(), 2, 13, False)
        self.assertEqual(resolved.text.decode(), "é –x")
        want = [(0, 0, 0, 2, 2), (1, 0, 2, 3, 6), (0, 2, 6, 7, 10), (2, 6, 7, 11, 12)]
        self.assertEqual(list(resolved.chunks), want)
        self.assertEqual(resolved.names, 0)
        self.assertEqual((resolved.chunks[3].kind, resolved.chunks[3].start), (Chunk.MATH, 11))
        self.assertEqual(bib.format_verbatim(resolved.text, resolved.chunks), "é –$x$")
        self.assertEqual(bib.resolve_literal(b"$x", 0, 2, True).text, b"$x")
        self.assertEqual(bib.resolve_literal(b"", 0, 0, False), (b"", ((0, 0, 0, 0, 0),), 0))

    def test_most_room(self):
        """What takes the most rows and the most text, at every length and at the longest."""
        for part in (b"{}", b"$$", b"{}a", b"--", b"\\ ", b"\\x"):
            for count in [*range(20), bib.MOST_LITERAL // len(part)]:
                literal = part * count
                bib.resolve_literal(literal, 0, len(literal), False)

    def test_refusals(self):
        deep = b"\\a{" * 65 + b"}" * 65
        cases = [(b"..$x", 2, 4, 3, 4, 4), (b"a}", 0, 2, 11, 1, 2), (deep, 0, len(deep), 14, 194, 195), (b"a\xff", 0, 1, 2, 1, 1)]
        cases += [(b"a" * 16_386, 1, 16_386, 1, 1, 16_386)]
        cases += [(b"a\xc3\xa9", start, end, 17, 0, 0) for start, end in [(1, 0), (0, 2), (0, 4), (-1, 1), (0, -1), (0, 1 << 70)]]
        for file, start, end, *want in cases:
            with self.assertRaises(Refusal) as caught:
                bib.resolve_literal(file, start, end, False)
            refusal = caught.exception
            self.assertEqual([refusal.number, refusal.start, refusal.end], want)
        self.assertEqual(str(Refusal(1, 1, 16_386)), "a literal is longer than 16,384 bytes at byte 1 (refusal 1)")

    def test_fields(self):
        def field(file: bytes, *more):
            rows = bib.read(file)
            which = next(i for i, row in enumerate(rows) if row.kind == Kind.FIELD_NAME) + 1
            return bib.resolve_field(file, rows, which, *more)

        file = b"@b{k,t=a#{y}}@string{a={x}}"
        self.assertEqual(field(file, False), (b"xy", ((0, 0, 2, 24, 11),), 1))
        months = [("may", "May"), ("may", "Mai"), ("a", "é")]
        self.assertEqual(field(b"@b{k,t=may#{--}}", True, months).text, b"May--")
        self.assertEqual(field(b"@b{k,t=may#a}", False, months), ("Mayé".encode(), ((0, 0, 5, 7, 12),), 2))
        # More than is lent at first
        many = b"@b{k,t=d11}@string{d0={" + b"{x}y" * 100 + b"}}"
        many += b"".join(b"@string{d%d=d%d#d%d}" % (i, i - 1, i - 1) for i in range(1, 12))
        resolved = field(many, False)
        self.assertEqual((resolved.names, resolved.text), (4_095, b"xy" * 100 * 2_048))
        refused = [(b"@b{k,t=may}", 12, 7, 10), (b"@b{k,t=a}@string{a=a}", 13, 19, 20), (b"@b{k,t={$}#a}", 3, 9, 9)]
        refused += [(b"@b{k,t=" + b"a#" * 4_096 + b"a}@string{a={}}", 15, 8_199, 8_200)]
        for file, *want in refused:
            with self.assertRaises(Refusal) as caught:
                field(file, False)
            refusal = caught.exception
            self.assertEqual([refusal.number, refusal.start, refusal.end], want)
        for which in (-1, 0, 1, 3, 1 << 70):
            with self.assertRaises(Refusal) as caught:
                bib.resolve_field(b"a", [(8, 0, 0, 1), (5, 0, 0, 1), (6, 0, 0, 2)], which, False)
            self.assertEqual(caught.exception.number, 17)

    def test_files(self):
        """Every value as alone, with flags that differ, and refusals that stop no other value."""
        file = "@b{k,t=a#{\\'e}, url={\\'e}, m=may, n=nothing, o={$}}@string{a={{x}é}}@string{b=b}".encode()
        rows, months = bib.read(file), [("may", "May")]
        chosen = [i for i, row in enumerate(rows) if row.kind == Kind.VALUE]
        flags = [False, True, False, False, True, False, True]
        resolved = bib.resolve_file(file, rows, flags, months)
        self.assertEqual(len(resolved), len(chosen))
        for which, flag, value in zip(chosen, flags, resolved):
            try:
                self.assertEqual(value, bib.resolve_field(file, rows, which, flag, months))
            except Refusal as refusal:
                places = [(one.number, one.start, one.end) for one in (value, refusal)]
                self.assertEqual(places[0], places[1])
        numbers = [value.number if isinstance(value, Refusal) else 0 for value in resolved]
        self.assertEqual(numbers, [0, 0, 0, 12, 0, 0, 13])
        self.assertEqual(bib.resolve_file(b"", [], []), ())
        for too_few in (flags[:6], []):
            with self.assertRaises(Refusal) as caught:
                bib.resolve_file(file, rows, too_few, months)
            self.assertEqual(caught.exception.number, 17)

    def test_more_room_than_at_first(self):
        file = b"@string{d0={" + b"{x}y" * 100 + b"}}"
        file += b"".join(b"@string{d%d=d%d#d%d}" % (i, i - 1, i - 1) for i in range(1, 12))
        resolved = bib.resolve_file(file, bib.read(file), [False] * 12)
        self.assertEqual([value.names for value in resolved], [2 ** (i + 1) - 2 for i in range(12)])
        self.assertEqual(resolved[11].text, b"xy" * 100 * 2_048)


class Checking(unittest.TestCase):
    def test_findings(self):
        file = b"@a{k}\n@book{l, year = 1996, year = 1997}\n@c{m, t = acm}\n@d{n,}"
        found = bib.check(file)
        self.assertEqual([finding.name for finding in found], ["expected-comma", "duplicate-field", "unknown-name"])
        self.assertEqual([finding.number for finding in found], [7, None, 12])
        self.assertEqual([finding.level for finding in found], ["error", "warning", "error"])
        self.assertEqual([finding.key for finding in found], ["k", "l", "m"])
        self.assertEqual(found[1][3:7], (2, 23, 28, 32))
        self.assertEqual(file[found[1].start : found[1].end], b"year")
        self.assertEqual(found[1].message, "the entry has the field `year` already, at 2:10")
        self.assertIsNone(found[1].hint)
        self.assertTrue(found[2].hint.startswith("put a text into braces: {acm}"))
        self.assertEqual(bib.check(bytearray(b"@a{k,}")), ())
        self.assertEqual(bib.check(b""), ())
        self.assertEqual(bib.check(b"@c{m, t = acm}", resolve=False), ())
        self.assertEqual(bib.check(b"@c{m, t = {0123456789ab}}", limit=10)[0].number, 16)

    def test_any_bytes(self):
        found = bib.check(b"@a{k\0,t={G\xf6del}}")[0]
        self.assertEqual((found.number, found.key), (2, "k"))
        self.assertIn("G\u00f6del", found.hint)
        self.assertEqual(bib.check(bytes(bib.MOST_BYTES + 1))[0].number, 1)

    def test_strings(self):
        """Other files lend definitions, and one that is at fault is named by its number."""
        file, sound = b"@c{m, t = acm}", ("sound.bib", b"@string{acm = {ACM Press}}")
        self.assertEqual(bib.check(file, strings=[sound]), ())
        found = bib.check(file, [sound, ("bad.bib", b"\n@string{acm = nope}")], name="mine.bib")
        self.assertEqual([(one.lender, one.line, one.column) for one in found], [(1, 2, 15)])
        self.assertEqual(found[0].message, "a name without a definition: `nope`, in `t` of entry m (mine.bib, line 1)")
        with self.assertRaises(Refusal) as caught:
            bib.check(file, [("long.bib", bytes(bib.MOST_BYTES + 1))])
        self.assertEqual(caught.exception.number, 1)

    def test_as_the_command_has_them(self):
        """What the command prints of the examples, where it was built."""
        root = pathlib.Path(__file__).resolve().parents[2]
        command = root / "host/target/release/bib"
        if not command.is_file():
            self.skipTest("the command was not built")
        for path in sorted((root / "examples").glob("*.bib")):
            run = subprocess.run([command, "check", "--json", path], capture_output=True)
            want = [json.loads(line) for line in run.stdout.splitlines()]
            for finding in want:
                del finding["file"]
            found = [finding._asdict() for finding in bib.check(path.read_bytes())]
            for finding in found:
                self.assertIsNone(finding.pop("lender"))
            self.assertEqual(found, want, path.name)


class Words(unittest.TestCase):
    def test_as_the_header_has_them(self):
        """The kinds have the header's numbers."""
        header = pathlib.Path(__file__).resolve().parents[2] / "include/bib.h"
        for kind in [*Kind, *Chunk]:
            self.assertRegex(header.read_text(), rf"\bBIB_{kind.name} = {kind.value}\b")

    def test_version(self):
        """What pip installs has the header's version."""
        root = pathlib.Path(__file__).resolve().parents[2]
        version = re.search(r'^version = "(.*)"$', (root / "host/python/pyproject.toml").read_text(), re.M)[1]
        self.assertIn(f'#define BIB_VERSION "{version}"', (root / "include/bib.h").read_text())

    def test_as_the_rust_has_them(self):
        """The words for refusals are those of host/bib."""
        source = (pathlib.Path(__file__).resolve().parents[1] / "bib/src/refusal.rs").read_text()
        numbers = dict(re.findall(r"    (\w+) = (\d+),", source))
        words = re.findall(r"Self::(\w+) => \"(.*)\",", source[: source.index("what_at")])
        self.assertEqual({int(numbers[name]): what for name, what in words}, bib._WHAT)

    def test_what_is_known(self):
        """The months and the verbatim fields are those of host/proved."""
        source = (pathlib.Path(__file__).resolve().parents[1] / "proved/src/known.rs").read_text()
        verbatim, months = source.split("pub const MONTHS")
        self.assertEqual(tuple(re.findall(r'"(\w+)"', verbatim)), bib.VERBATIM)
        self.assertEqual(tuple(re.findall(r'\("(\w+)", "(\w+)"\)', months)), bib.MONTHS)


if __name__ == "__main__":
    unittest.main()
