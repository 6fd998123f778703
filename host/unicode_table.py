"""What host/compose/table and host/casing/table share: where the data come from, and how a table is written or held to them.

A table stands in two files of a crate, the constant that the code searches and the list that the definitions and the
contracts go by. The proof holds the two equal, so a wrong number in one of them alone is refused.

    table                      writes the files
    table --check              writes nothing; says whether they are what would be written
    table --rows               writes nothing; prints the rows
    .. --data FOLDER           from Unicode's files in FOLDER
    .. --icu                   from the ICU of node

Without --data and --icu it takes the first of these that has Unicode VERSION: the files where Debian's package
unicode-data puts them, then node. With --data or --icu another version is refused too, unless only its rows are
printed.

The tables that are kept were made with node 20.20.2, whose ICU is 78.2: Debian's unicode-data had Unicode 15.0 then.
"""

import argparse
import os
import subprocess
import sys
import textwrap

VERSION = "17.0"
INSTALLED = "/usr/share/unicode"
WIDTH = 100
ROOT = os.path.dirname(os.path.dirname(os.path.abspath(__file__)))


class Trouble(Exception):
    """What keeps the table from being made, in words."""


def text_of(path):
    try:
        with open(path, encoding="utf-8") as file:
            return file.read()
    except OSError as error:
        raise Trouble(f"cannot read {error.filename}: {error.strerror}")


def lines_of(folder, name):
    return text_of(os.path.join(folder, name)).splitlines()


def version_of_data(folder, name):
    """The first line of CompositionExclusions.txt is, for instance, `# CompositionExclusions-15.0.0.txt`."""
    return lines_of(folder, name + ".txt")[0].removeprefix(f"# {name}-").removesuffix(".0.txt")


def node(program):
    try:
        return subprocess.run(["node", "-e", program], check=True, capture_output=True, text=True).stdout
    except FileNotFoundError:
        raise Trouble("node is not on the PATH")
    except subprocess.CalledProcessError as error:
        raise Trouble("node failed: " + error.stderr.strip())


def numbers_of_icu(program):
    """The lines that a program of node prints, each as its numbers."""
    return [tuple(map(int, line.split())) for line in node(program).splitlines()]


def laid_out(numbers):
    """The numbers of a constant, as many to a line as `rt fmt` puts there."""
    return textwrap.fill(" ".join(f"0x{number:04x}," for number in numbers), WIDTH, initial_indent="    ", subsequent_indent="    ") + "\n"


class Table:
    """A table of Unicode's data, of which each maker has its own.

    data        the names of the files that it is made from; the last has the version in its first line
    of_data     the table by the files of a folder
    of_icu      the table by node
    rows        the rows of a table, as lines
    files       each file that is written: its path below ROOT, its text, and how many rows it has
    """

    data = []

    def version_of_data(self, folder):
        return version_of_data(folder, self.data[-1])

    def version_of_icu(self):
        return node("console.log(process.versions.unicode)").strip()

    def of_version(self):
        """From the first source that has VERSION."""
        seen = []
        for version, table in [
            (lambda: self.version_of_data(INSTALLED), lambda: self.of_data(INSTALLED)),
            (self.version_of_icu, self.of_icu),
        ]:
            try:
                found = version()
            except Trouble as trouble:
                seen.append(str(trouble))
                continue
            if found == VERSION:
                return table()
            seen.append(f"Unicode {found}")
        raise Trouble(f"no source has Unicode {VERSION}: {INSTALLED}: {seen[0]}; node: {seen[1]}")

    def arguments(self):
        files = " and ".join(name + ".txt" for name in self.data)
        parser = argparse.ArgumentParser(prog="table", description=f"Writes a table of Unicode {VERSION}.")
        parser.add_argument("--check", action="store_true", help="write nothing; say whether the files are what would be written")
        parser.add_argument("--rows", action="store_true", help="write nothing; print the rows")
        source = parser.add_mutually_exclusive_group()
        source.add_argument("--data", metavar="FOLDER", help=f"the folder of {files}")
        source.add_argument("--icu", action="store_true", help="the ICU of node")
        return parser.parse_args()

    def by(self, given):
        if not given.data and not given.icu:
            return self.of_version()
        version = self.version_of_data(given.data) if given.data else self.version_of_icu()
        if version != VERSION and not given.rows:
            raise Trouble(f"the table is of Unicode {VERSION}, and this is Unicode {version}")
        return self.of_data(given.data) if given.data else self.of_icu()

    def main(self):
        given = self.arguments()
        table = self.by(given)
        if given.rows:
            print("\n".join(self.rows(table)))
            return 0
        wrong = 0
        for name, text, count in self.files(table):
            path = os.path.join(ROOT, name)
            if not given.check:
                with open(path, "w", encoding="utf-8") as file:
                    file.write(text)
                print(f"{name}: written, {count} rows of Unicode {VERSION}")
            elif text_of(path) == text:
                print(f"{name}: as it must be, {count} rows of Unicode {VERSION}")
            else:
                print(f"{name}: NOT what would be written")
                wrong = 1
        return wrong

    def run(self):
        try:
            sys.exit(self.main())
        except Trouble as trouble:
            print(f"table: {trouble}", file=sys.stderr)
            sys.exit(2)
