"""Counts the definitions, by crate: those that a reader has to believe, and those of specs/Clauses.antt, which serve the contracts of the code alone.

Of each file given, such as history/specs/Mission.antt, it counts what the file reaches by its imports, and so all that its statements rest on. Lib.antt, which
only lists a crate's files, is not counted.
"""
import re
import sys
from pathlib import Path

CRATES = Path(__file__).resolve().parent.parent / "crates"
IMPORT = re.compile(r"^use Rattle\.(?!std\.)(\w+)\.specs\.(?!declared)(\w+)", re.M)


def counted(path):
    """How many lines, and how many that define: neither empty nor a comment nor an import."""
    lines = path.read_text(encoding="utf-8").splitlines()
    return len(lines), sum(1 for line in lines if line.strip() and not line.lstrip().startswith(("--", "use ")))


def reached(path):
    """The files of definitions that a file rests on, itself among them."""
    found, left = set(), [path]
    while left:
        one = left.pop()
        if one not in found:
            found.add(one)
            left += [CRATES / crate / "specs" / (name + ".antt") for crate, name in IMPORT.findall(one.read_text(encoding="utf-8"))]
    return found


def show(name, files):
    lines, defining = map(sum, zip(*map(counted, files)))
    print("%-40s %3d files %6d lines %6d defining" % (name, len(files), lines, defining))


def main():
    files = [path for path in sorted(CRATES.glob("*/specs/*.antt")) if path.stem != "Lib"]
    for path in files:
        show(str(path.relative_to(CRATES)), [path])
    show("to believe", [path for path in files if path.stem != "Clauses"])
    show("of these, tables of edges", [path for path in files if path.stem == "Edges"])
    show("for the contracts of the code alone", [path for path in files if path.stem == "Clauses"])
    for name in sys.argv[1:]:
        show("what %s rests on" % name, reached(CRATES / name))


if __name__ == "__main__":
    main()
