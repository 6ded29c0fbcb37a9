"""Holds every name that the documents give in backticks to the tree: it exists, and it stands in the file that is named beside it.

A word is checked by its form: a path, a must-fail edit, a path of code (`a::b`), a definition, a theorem, a statement's field or code (with underscores), a constant (capitals alone), a
type (with a capital first), a name of an older spelling (with hyphens, or a capital inside). A word of no such form, such as a value or a plain word, is checked where the document says which file or
crate it stands in: `name` (`file`), `name` of `file`, (`name`, `file`), a list after a folder, a column "stands in" or "its calls". Of a command line only
its paths are checked. What describes the past (CHANGELOG.md, docs/changes/, docs/PORT.md, docs/DESIGN-PASS.md) is not checked: names there may have gone. The table of crates has each crate
of crates.txt, in its order, every rule that docs/RULES.md names has one line there, and docs/READING.md lists every file of definitions to believe.
"""
import re
import sys
from pathlib import Path

ROOT = Path(__file__).resolve().parent.parent
LISTED = [(line.split(":")[0].split()[0], line.partition(":")[2]) for line in (ROOT / "crates.txt").read_text(encoding="utf-8").splitlines() if not line.startswith("#")]
CRATES = {name: ROOT / "crates" / name for name, _ in LISTED}
KIT = {crate for _, needed in LISTED for crate in needed.split()} - set(CRATES)  # crates of the kit that ours need
OUTSIDE = re.compile(r"target/|crates/\w+/out/|shared/")  # made by building, and handed out beside the repository
PARTS = ("specs", "proofs", "src", "must-fail", "data")  # what a crate's folder has
JOINTS = (",", "and", ", and")  # between names of one list

FENCED = re.compile(r"^```.*?^```$", re.S | re.M)
BLOCK_STARTS = re.compile(r"\|| *- | *\d+\. |#|$")  # a table's row, an item of a list, a heading, an empty line
FILE = re.compile(r"[\w./*-]+\.(antt|rt|py|md|txt|c|h|edit)")
PATH = re.compile(r"[A-Za-z.][\w.*-]*/[\w./*-]*")
PLACEHOLDER = re.compile(r"\b(NAME|LABEL|MODULE|FUNCTION)\b")  # for any name
EDIT = re.compile(r"([a-z]+)/([a-z0-9]+(_[a-z0-9]+)+)")
CODE_PATH = re.compile(r"\w+(::\w+)+")
THEOREM = re.compile(r"[a-z][a-z0-9]*(-[a-z0-9]+)+")
SPELT = re.compile(r"[a-z][a-z0-9]*(_[a-z0-9]+)+")
CONSTANT = re.compile(r"[A-Z][A-Z0-9_]+")
DEFINITION = re.compile(r"[a-z][a-z0-9]*[A-Z]\w*|[A-Z]\w*[a-z]\w*")
NAME = re.compile(r"[\w-]+")
RULE = re.compile(r"\b[A-Z]\d+\b")

STATED = re.compile(r"^ *(?:(?:pub|abbrev|unfoldable|opaque|record|data) )*([^\W\d][\w'-]*)(?: [({].*)? :", re.M)
DECLARED = re.compile(r"\b(?:fn|struct|enum|const|mod|type) (\w+)|^ +([A-Z]\w*)(?:,| \{|\(.*\),)$", re.M)


def names_in(path):
    """The names that a file defines: of antt what is stated with a type, of code what is declared."""
    text = path.read_text(encoding="utf-8")
    if path.suffix == ".antt":
        return set(STATED.findall(text))
    return {name for pair in DECLARED.findall(text) for name in pair if name}


SOURCES = [path for part in ("specs/*.antt", "proofs/**/*.antt", "src/*.rt") for path in sorted((ROOT / "crates").glob("*/" + part))]
DEFINED = {path: names_in(path) for path in SOURCES}


def anywhere(part, name):
    """Whether some file of this part of a crate defines the name."""
    return any(name in names for path, names in DEFINED.items() if path.relative_to(ROOT / "crates").parts[1] == part)


class Block:
    """A paragraph, an item of a list or a row of a table: words and the prose between them, in turn, prose first."""

    def __init__(self, text, line, heading, header):
        self.line, self.heading, self.header = line, heading, header
        self.pieces = [" ".join(piece.split()) if at % 2 else piece for at, piece in enumerate(text.split("`"))]
        self.words = self.pieces[1::2]
        self.crates = [CRATES[name] for word in self.words for name in [word.split("/")[0].split("::")[0]] if name in CRATES]

    def cells(self):
        """The words of each cell of a row, and the cell's whole text."""
        cells = "`".join(self.pieces).strip().strip("|").split("|")
        return [(cell.split("`")[1::2], cell.strip()) for cell in cells]

    def prose(self, at):
        return " ".join(self.pieces[at].split())


def blocks(text):
    """The blocks of a document. A row knows the last cell of its table's head, and every block the last heading above it."""
    text = FENCED.sub(lambda fenced: "\n" * fenced[0].count("\n"), text)
    heading = header = ""
    gathered, start = [], 0
    for line, words in enumerate(text.split("\n") + [""], 1):
        if BLOCK_STARTS.match(words) and gathered:
            yield Block("\n".join(gathered), start, heading, header)
            gathered = []
        if words.startswith("#"):
            heading = words
        if not words.startswith("|"):
            header = ""
        elif not header:
            header = words.strip("| ").split("|")[-1].strip()
        if words.strip():
            start, gathered = (start, gathered) if gathered else (line, [])
            gathered.append(words)


def expanded(word):
    """`a/{B, C}.d` is `a/B.d` and `a/C.d`."""
    braces = re.fullmatch(r"([^{}]*)\{([^{}]*)\}([^{}]*)", word)
    return [braces[1] + inner.strip() + braces[3] for inner in braces[2].split(",")] if braces else [word]


def is_path(word):
    return FILE.fullmatch(word) or PATH.fullmatch(word)


def bases(block, path):
    """The folders that a path may start from: a crate that the heading or the block names, or a folder that the block names."""
    named = [CRATES[name] for name in re.findall(r"`(\w+)`", block.heading) if name in CRATES] or block.crates
    if path.split("/")[0] in PARTS:
        return named or list(CRATES.values())
    beside = [ROOT / "crates" / part for word in block.words for part in expanded(word) if "/" in part]
    return beside + [path.parent for path in beside] + [crate / part for crate in named for part in PARTS]


def found(block, path):
    """What the path can mean in the tree."""
    pattern = PLACEHOLDER.sub("*", path.removeprefix("./")).rstrip("/")
    hits = [hit for base in (ROOT, ROOT / "crates") for hit in base.glob(pattern)]
    if not hits and ("/" not in pattern or pattern.split("/")[0] in PARTS):
        hits = [hit for base in bases(block, pattern + "/") for hit in base.glob(pattern)]
    return [hit for hit in hits if hit.is_dir() or not path.endswith("/")]


def in_code(crate, segments):
    """Whether a path of code leads through the modules and types of a crate to a name that it defines."""
    files = sorted((crate / "src").glob("*.rt"))
    for segment in segments:
        module = [path for path in files if path.stem == segment]
        if not module and not any(segment in DEFINED[path] for path in files):
            return False
        files = module or files
    return True


def path_missing(block, word):
    """Of a path, and so of each form below: what is wrong with it, or None."""
    return None if OUTSIDE.match(word) or found(block, word) else "no such file or folder"


def edit_missing(block, word):
    crate, label = word.split("/")
    return None if (CRATES[crate] / "must-fail" / (label + ".edit")).is_file() else "no such must-fail edit"


def code_path_missing(block, word):
    first, *rest = segments = word.split("::")
    leads = first in CRATES and in_code(CRATES[first], rest) or any(in_code(crate, segments) for crate in block.crates)
    return None if leads else "not in the code of the crate"


def definition_missing(block, word):
    files = [path for path in SOURCES for crate in block.crates if path.stem == word and crate in path.parents]
    return None if files or any(anywhere(part, word) for part in ("specs", "proofs", "src")) else "no such definition or type"


def missing(block, word):
    """What is wrong with one word, by its form, or None."""
    edit = EDIT.fullmatch(word)
    if edit and edit[1] in CRATES:
        return edit_missing(block, word)
    if is_path(word):
        return path_missing(block, word)
    if CODE_PATH.fullmatch(word):
        return code_path_missing(block, word)
    if THEOREM.fullmatch(word):
        return None if anywhere("proofs", word) or anywhere("specs", word) else "no such theorem, nor a field of a statement"
    if SPELT.fullmatch(word):
        return None if word in CRATES or any(anywhere(part, word) for part in ("specs", "proofs", "src")) else "no such definition or theorem, nor in the code"
    if CONSTANT.fullmatch(word):
        return None if anywhere("src", word) else "not in the code"
    return definition_missing(block, word) if DEFINITION.fullmatch(word) else None


def without_remark(prose):
    """What stands between two names, without a remark in parentheses."""
    return " ".join(re.sub(r"\([^()]*\)", "", prose).split())


def listed_files(block):
    """(place of the word, folder, word) for `folder/`, `A`, `B`: files of that folder."""
    for at in range(1, len(block.pieces), 2):
        folder, joints = block.pieces[at], (",", ":", "in this order:")
        if not folder.endswith("/") or not is_path(folder):
            continue
        while at + 2 < len(block.pieces) and without_remark(block.pieces[at + 1]) in joints and re.fullmatch(r"[A-Z]\w*", block.pieces[at + 2]):
            at, joints = at + 2, (",",)
            yield at, folder, block.pieces[at]


def names_before(block, at):
    """The names of the list that ends before place `at`, and the prose before the list."""
    names = []
    while at >= 1:
        names.append(block.pieces[at])
        if block.prose(at - 1) not in JOINTS:
            break
        at -= 2
    return [name for name in names if NAME.fullmatch(name)], block.pieces[at - 1]


def standing(block):
    """(names, files) where the block says that names stand in a file: `name` (`file`), `name` of `file`, (`name`, `file`)."""
    for at in range(1, len(block.pieces), 2):
        if not FILE.fullmatch(block.pieces[at]) or at < 3:
            continue
        names, opening = names_before(block, at - 2)
        if block.prose(at - 1) in ("(", "of") or (block.prose(at - 1) in JOINTS and opening.endswith("(")):
            yield names, found(block, block.pieces[at])


def crates_missing(block):
    """Words that stand after "crate", and name none of ours or the kit's."""
    for at in range(1, len(block.pieces), 2):
        if re.search(r"\b[Cc]rates?$", block.prose(at - 1)) and block.pieces[at] not in {*CRATES, *KIT}:
            yield block.pieces[at], "no such crate"


def rows_standing(block, before):
    """The same for a row of a table with the column "stands in": its first cell's names stand in its last cell's files."""
    cells = block.cells()
    files = [path for word in cells[-1][0] for path in found(block, word) if FILE.fullmatch(word)]
    return [name for name in cells[0][0] if NAME.fullmatch(name)], before if cells[-1][1] == "the same files" else files


def calls_missing(block):
    """Of a row of the table of crates, which has the column "its calls": each call that its crate does not define."""
    (crates, _), *_, (calls, _) = block.cells()
    for crate in crates:
        for word in [part for call in calls for part in expanded(call)] if crate in CRATES else []:
            if not in_code(CRATES[crate], word.split("::")):
                yield word, "not in the code of crate " + crate


def astray(names, files):
    """The names that none of the files defines. Files that are missing are told elsewhere."""
    texts = [path for path in files if path in DEFINED]
    return [name for name in names if texts and not any(name in DEFINED[path] for path in texts)]


def words_wrong(block):
    """What is wrong with the words by their form, but for those of a list after a folder."""
    in_folder = {at for at, _, _ in listed_files(block)}
    for at in range(1, len(block.pieces), 2):
        for word in expanded(block.pieces[at]) if at not in in_folder else []:
            for part in [word] if " " not in word else filter(is_path, word.split()):
                yield part, missing(block, part)


def places_wrong(block, before):
    """What is wrong with the words by the place that the document gives them; `before` is the list of files of the row above."""
    for _, folder, word in listed_files(block):
        yield word, None if found(block, folder + word + ".antt") else "no such file in " + folder
    for names, files in [*standing(block), *([rows_standing(block, before)] if block.header == "stands in" else [])]:
        for name in astray(names, files):
            yield name, "not in " + ", ".join(str(path.relative_to(ROOT)) for path in files)
    yield from crates_missing(block)
    yield from calls_missing(block) if block.header == "its calls" else []


def wrongs(document):
    """The lines that tell what is wrong in a document, and the crates that its table of crates has."""
    lines, tabled, before = [], [], []
    for block in blocks(document.read_text(encoding="utf-8")):
        for word, wrong in [*words_wrong(block), *places_wrong(block, before)]:
            if wrong:
                lines.append("%s, from line %d on: `%s`: %s" % (document.relative_to(ROOT), block.line, word, wrong))
        before = rows_standing(block, before)[1] if block.header == "stands in" else []
        tabled += block.cells()[0][0] if block.header == "its calls" else []
    return lines, tabled


def rules_wrong(text):
    """The rules that a page of rules names without a line for each, or with two."""
    told = re.findall(r"^\| ([A-Z]\d+)\*?(?: \(A\.\d+(?:, A\.\d+)*\))? \|", text, re.M)  # with the requests that amended or added the rule
    return ["docs/RULES.md: %s has %d lines" % (rule, told.count(rule)) for rule in dict.fromkeys(RULE.findall(text)) if told.count(rule) != 1]


def unlisted(text):
    """The files of definitions that READING's list of what has to be believed does not name: in one item, a word for the crate and one for the file."""
    section = text.split("## What has to be believed", 1)[1].split("\n## ", 1)[0]
    items = [set(re.findall(r"[A-Za-z]+", " ".join(item.split("`")[1::2]))) for item in re.split(r"\n(?=\d+\. )", section)]
    believed = [path for path in DEFINED if path.parent.name == "specs" and path.stem not in ("Lib", "Clauses")]
    return ["docs/READING.md does not list %s" % path.relative_to(ROOT) for path in believed
            if not any({path.parent.parent.name, path.stem} <= item for item in items)]


def main():
    documents = [ROOT / "README.md", ROOT / "CONTRIBUTING.md", *(page for page in sorted((ROOT / "docs").glob("*.md")) if page.name not in ("PORT.md", "DESIGN-PASS.md"))]
    told = [wrongs(document) for document in documents]
    lines = [line for wrong, _ in told for line in wrong] + rules_wrong((ROOT / "docs/RULES.md").read_text(encoding="utf-8"))
    lines += unlisted((ROOT / "docs/READING.md").read_text(encoding="utf-8"))
    if [crate for _, tabled in told for crate in tabled] != list(CRATES):
        lines.append("the table of crates is not that of crates.txt")
    if lines:
        sys.exit("documents: names that the tree does not have:\n" + "\n".join(dict.fromkeys(lines)))
    print("documents: the tree has every name of %d documents" % len(documents))


if __name__ == "__main__":
    main()
