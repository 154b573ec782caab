"""The data of `scripts/mistakes`, as its README describes them."""
import dataclasses
import pathlib
import re

ROOT = pathlib.Path(__file__).resolve().parent.parent
FOLDER = ROOT / "scripts" / "mistakes"
REPOSITORY_FILE = ".config/nextest.toml"
FLAGS = {"crlf", "bom", "tabs", "bytes"}
RANGE = re.compile(r"(\d+):(\d+)\.\.(\d+):(\d+)")
BYTE = re.compile(r"<([0-9A-F]{2})>")


@dataclasses.dataclass
class Text:
    """The text of a file: its path, what it is written with, and its lines."""

    path: str
    flags: set
    lines: list = dataclasses.field(default_factory=list)

    def plain(self, line):
        """A line, or a part of one, with its marks replaced."""
        if "tabs" in self.flags:
            line = line.replace("→", "\t")
        if "bytes" in self.flags:
            # A byte that is not a character is one in the range of such bytes, as in `surrogateescape`.
            line = BYTE.sub(lambda found: chr(0xDC00 + int(found[1], 16)), line)
        return line

    def bytes(self):
        end = "\r\n" if "crlf" in self.flags else "\n"
        text = "".join(self.plain(line) + end for line in self.lines)
        start = "\ufeff" if "bom" in self.flags else ""
        return (start + text).encode("utf-8", "surrogateescape")


@dataclasses.dataclass
class Wanted:
    """What a finding has to say."""

    codes: list
    paths: list
    ranges: list = dataclasses.field(default_factory=list)
    at: str | None = None
    there: list = dataclasses.field(default_factory=list)
    expected: list = dataclasses.field(default_factory=list)
    help: list = dataclasses.field(default_factory=list)
    page: list = dataclasses.field(default_factory=list)


@dataclasses.dataclass
class Block:
    """A mistake, or files without one."""

    kind: str
    name: str
    place: str
    files: list = dataclasses.field(default_factory=list)
    words: list = dataclasses.field(default_factory=lambda: ["check"])
    status: int | None = None
    later: bool = False
    findings: list = dataclasses.field(default_factory=list)
    may: list = dataclasses.field(default_factory=list)

    def file_of(self, path):
        return next((text for text in self.files if text.path == path), None)


class DataError(Exception):
    """A line of the data that is not understood, or that is at odds with another one."""


def read_range(text):
    """A range as two places, or none for nowhere."""
    if text == "nowhere":
        return None
    found = RANGE.fullmatch(text)
    if not found:
        raise DataError(f"`{text}` is not a range")
    a, b, c, d = map(int, found.groups())
    return (a, b), (c, d)


def read_words(text):
    """Alternatives, of which each has to be named."""
    return [] if text == "-" else [words.split(" // ") for words in text.split(" ; ")]


def read_file_head(rest):
    words = rest.split(" ") if rest else []
    paths = [word for word in words if word not in FLAGS]
    if len(paths) > 1:
        raise DataError(f"`{rest}` has several paths")
    return Text(paths[0] if paths else REPOSITORY_FILE, FLAGS & set(words))


def read_finding_head(rest, block):
    codes, _, paths = rest.partition(" in ")
    if not block.files:
        raise DataError("a finding before the first file")
    paths = paths.split("|") if paths else [reported_path(block)]
    return Wanted(codes.split("|"), paths)


def reported_path(block):
    """The path of the first file, as it is reported."""
    if "--stdin-path" in block.words:
        return block.words[block.words.index("--stdin-path") + 1]
    return block.files[0].path


def take_line(block, line):
    """Adds what a line says to a block."""
    word, _, rest = line.partition(" ")
    last = block.findings[-1] if block.findings else None
    if word == "file":
        block.files.append(read_file_head(rest))
    elif word == "run":
        block.words = rest.split(" ")
    elif word == "status":
        block.status = int(rest)
    elif line == "later":
        block.later = True
    elif word == "may":
        block.may.append(rest)
    elif word == "finding":
        block.findings.append(read_finding_head(rest, block))
    elif last is None:
        raise DataError(f"`{line}` is not understood")
    elif word == "range":
        last.ranges = [read_range(text) for text in rest.split(" or ")]
    elif word == "at":
        last.at = rest
    elif word in ("there", "expected", "help"):
        setattr(last, word, read_words(rest))
    elif word == "page":
        last.page.append(rest)
    else:
        raise DataError(f"`{line}` is not understood")


def read_blocks(path):
    """The blocks of a file of data."""
    blocks, text, empty = [], None, 0
    for number, line in enumerate(path.read_text(encoding="utf-8").split("\n"), 1):
        place = f"{path.name}:{number}"
        if line.startswith("  ") and text is not None:
            text.lines += [""] * empty + [line[2:]]
            empty = 0
            continue
        if not line:
            empty += 1
            continue
        text, empty = None, 0
        if line.startswith("#"):
            continue
        word, _, rest = line.partition(" ")
        try:
            if word in ("mistake", "usual"):
                blocks.append(Block(word, rest, place))
            elif not blocks:
                raise DataError("a line before the first block")
            else:
                take_line(blocks[-1], line)
        except (DataError, ValueError) as error:
            raise DataError(f"{place}: {error}") from None
        if word == "file":
            text = blocks[-1].files[-1]
    return blocks


def read_all():
    """All blocks, by the names of their files."""
    return [block for path in sorted(FOLDER.glob("*.txt")) for block in read_blocks(path)]


def known_codes():
    """The codes of the document of findings."""
    text = (ROOT / "docs" / "FINDINGS.md").read_text(encoding="utf-8")
    return re.findall(r"^## `([a-z-]+)`$", text, re.M)


def text_at(text, span):
    """The text of a range on one line, or none where it is not one of the file."""
    (line, start), (last, end) = span
    if line != last or not 1 <= line <= len(text.lines):
        return None
    plain = text.plain(text.lines[line - 1])
    return plain[start - 1:end - 1] if 1 <= start <= end <= len(plain) + 1 else None


def faults_of_wanted(block, wanted, codes):
    """What is at odds in what a finding has to say."""
    if not block.later:
        yield from (f"no code `{code}`" for code in wanted.codes if code not in codes)
    if not wanted.ranges:
        yield "no range"
    if not wanted.there:
        yield "nothing that is there"
    text = block.file_of(wanted.paths[0]) or (block.files[0] if block.files[0].path == "-" else None)
    for span in filter(None, wanted.ranges):
        (line, _), (last, _) = span
        if text is None or not 1 <= line <= last <= len(text.lines):
            yield f"no file has the range {span}"
        elif line == last and text_at(text, span) is None:
            yield f"line {line} has no range {span}"
    if wanted.at is not None and text is not None and wanted.ranges[0]:
        found = text_at(text, wanted.ranges[0])
        if found != text.plain(wanted.at):
            yield f"`{found}` is at {wanted.ranges[0]}, not `{wanted.at}`"


def faults_of_data(blocks):
    """What is at odds in the data."""
    codes, names = known_codes(), set()
    for block in blocks:
        if block.name in names:
            yield f"{block.place}: a second `{block.name}`"
        names.add(block.name)
        if not block.files:
            yield f"{block.place}: no file"
        if bool(block.findings) != (block.kind == "mistake"):
            yield f"{block.place}: a mistake has findings, and usual files have none"
        for wanted in block.findings:
            yield from (f"{block.place}: {fault}" for fault in faults_of_wanted(block, wanted, codes))
    used = {code for block in blocks for wanted in block.findings for code in wanted.codes if not block.later}
    yield from (f"no mistake has the code `{code}`" for code in codes if code not in used)
