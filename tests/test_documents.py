#!/usr/bin/env python3
"""Checks that the documents are true of the repository: links, paths, names, numbers, requirement ids and commands.

The documents are README.md, CONTRIBUTING.md and docs/*.md.

Names. docs/TRACE.md and docs/PROOFS.md say where a definition, a theorem or a function stands. Of a table cell or a paragraph, the
names in backticks that stand before "in `FILE`" or "(`FILE`)" have to be declared in that file; a semicolon or a full stop ends such
a list. Names in the first cell of a row whose last cell has only files have to be declared in one of these. A line that begins with
"In `FOLDER`" or "All in `FILE`" says it for the first cells up to the next heading. Every other name has to occur somewhere in the
sources. Names after the word "must-fail" are edits, and each edit of the repository has to be named in docs/TRACE.md.

Paths in these two documents may leave out `crates/` in front. In all documents src/, specs/, proofs/ and must-fail/ are folders of the
crate that the paragraph named last, or of some crate. Words in capitals, as NAME, stand for any name, and what is below `target` or in the
folder `out` of a crate is made by a build: it is not looked for.

Commands are the lines of indented and fenced blocks, up to two blanks in a row, and the words in backticks that begin as a command.
How each is tried:

    form        a command with a word in capitals or in square brackets: its program has to exist
    toolchain   rt: its first word has to be one that the toolchain has
    long        ./test, tests/differential, speed/*, the unit tests themselves, git, and the pictures that dot lays out, which differ from
                one version of it to the next: they have to exist and be executable
    built       with ./cantrace in it: as long; run too, as cheap, where a built program is there that is newer than its sources
    cheap       every other: run in a copy of the repository, has to end with exit status 0 and to leave each file of it as it was

They are run in the order of the document, so that one can use what another wrote.
"""

import os
import re
import shutil
import subprocess
import sys
import tempfile
import textwrap
import unittest
from functools import lru_cache
from pathlib import Path
from typing import Dict, Iterator, List, NamedTuple, Optional, Set, Tuple

import manager_cases
import sheet_cases
import trace_cases

ROOT = Path(__file__).resolve().parent.parent
CRATES = ROOT / "crates"
TRACE = "docs/TRACE.md"
PROOFS = "docs/PROOFS.md"
ARCHITECTURE = "docs/ARCHITECTURE.md"
# The documents whose paths may leave out `crates/`, and whose names have their places.
PLACING = (TRACE, PROOFS)
IN_SCOPE = "Requirements of 000 that are in scope"
OUT_OF_SCOPE = "Requirements of 000 that are out of scope"

# Every numbered item of 000, CANSM007 to CANSM429; those of its configuration tables that end in _Conf among them.
REQUIREMENTS = """
    007 008 009 010 011 013 014 015 016 017 022 023 024 025 027 028 032 033 037 039 043 044 045 061 062 063 064 065 069 070 071
    072 074 076 077 078 079 083 089 090 122 123 126 127 128 129 130 131 133 134 137 141 142 155 156 159 161 163 167 174 179 180
    181 182 183 184 185 186 187 188 189 190 191 198 219 231 235 237 238 239 240 241 242 243 311 312 314 339 340 341 344 345 346
    347 348 349 350 351 352 353 354 355 356 357 358 359 360 361 362 363 364 365 366 367 368 369 370 371 372 373 374 375 376 377
    378 379 380 381 382 383 384 385 387 388 389 390 391 392 393 394 395 396 397 398 399 400 401 402 403 404 405 406 407 408 409
    410 411 413 414 415 416 417 418 419 420 421 422 423 424 425 426 427 428 429
""".split()

EDIT_FILES = "*/must-fail/*.edit"
# The folders that a build makes.
MADE = ("target", "out", "__pycache__")
CRATE_FOLDERS = ("src/", "specs/", "proofs/", "must-fail/")
RT_COMMANDS = (
    "all", "check", "ci", "doc", "expand", "fmt", "help", "lemma", "lib", "must-fail", "new", "plant", "run", "seed", "selftest", "test", "tidy",
    "try", "verdict", "version",
)
LONG_COMMANDS = ("./test", "tests/differential", "git ", "speed/", "tools/draw steps", "tools/draw crates")
COMMAND_STARTS = ("./", "rt ", "python3 ", "sed ", "tests/", "tools/", "speed/", "git ", "printf ", "cat ", "xxd ", "cmp ", "diff ", "bash ")
SECONDS_OF_A_COMMAND = 60

CODE = re.compile(r"`([^`\n]+)`")
PATH = re.compile(r"[\w.+*-]+(?:/[\w.+*-]+)+/?")
FILE_NAME = re.compile(r"[\w+-]+\.(?:antt|rt|py|md|txt|script|edit|dot|svg|c|h)")
NAME = re.compile(r"[A-Za-zμ][\w'₀-₉-]*(?:::[\w-]+)*")
CAPITALS = re.compile(r"(?<![\w-])[A-Z]+\b|\[[^\]]*\]")
QUOTED = re.compile(r"'[^']*'|\"[^\"]*\"")
LINK = re.compile(r"!?\[[^\]\n]*\]\(([^)\s]+)\)")
HEADING = re.compile(r"^#+ (.*)$", re.MULTILINE)


# ---------------------------------------------------------------------------
# The documents, the sources
# ---------------------------------------------------------------------------


@lru_cache(maxsize=None)
def documents() -> Dict[str, str]:
    """Each document, by its path from the root, with its text."""
    paths = [ROOT / "README.md", ROOT / "CONTRIBUTING.md", *sorted((ROOT / "docs").glob("*.md"))]
    return {str(path.relative_to(ROOT)): path.read_text(encoding="utf-8") for path in paths}


@lru_cache(maxsize=None)
def paths_below(folder: Path) -> List[Path]:
    """The files and folders below a folder, without what a build makes."""
    found: List[Path] = []
    for path in sorted(folder.iterdir()):
        if path.name not in MADE:
            found += [path, *(paths_below(path) if path.is_dir() else [])]
    return found


@lru_cache(maxsize=None)
def text_of(path: Path) -> str:
    """The text of a file, or of all sources below a folder."""
    if path.is_file():
        return path.read_text(encoding="utf-8", errors="replace")
    return "\n".join(text_of(file) for file in paths_below(path) if file.suffix in (".antt", ".rt", ".py"))


@lru_cache(maxsize=None)
def all_sources() -> str:
    """All that names can stand in: the crates, the tests but this one, the tools, and the names of files, crates and edits."""
    names = [path.stem for path in paths_below(CRATES)]
    tests = [text_of(path) for path in sorted((ROOT / "tests").glob("*.py")) if path.name != Path(__file__).name]
    return "\n".join([text_of(CRATES), text_of(ROOT / "tools"), *tests, *names])


def occurs(name: str, text: str) -> bool:
    """Whether a name stands in a text as a whole word; of a path of names its last part."""
    word = re.escape(name.split("::")[-1])
    return re.search(rf"(?<![\w-]){word}(?![\w-])", text) is not None


def is_declared(name: str, text: str) -> bool:
    """Whether a text declares a name: in antt at the front of a line, in Rattle or Python after the word for it."""
    word = re.escape(name.split("::")[-1])
    in_antt = rf"^\s*(?:(?:unfoldable|abbrev|pub|record|data)\s+)*{word}(?=[ (:])"
    in_code = rf"\b(?:fn|struct|enum|const|mod|def|class)\s+{word}\b"
    return re.search(f"{in_antt}|{in_code}", text, re.MULTILINE) is not None


def edits() -> Set[str]:
    """The names of all must-fail edits; those of two crates may be the same."""
    return {path.stem for path in CRATES.glob(EDIT_FILES)}


def edit_faults(crate: Path, edit: str) -> Iterator[str]:
    """Why an edit of a crate cannot be made: its texts are put in one after the other, and each old one has to stand once by then."""
    name, text, old = "", "", ""
    for line in edit.splitlines():
        key, _, rest = line.partition(": ")
        if key == "file":
            name, text = rest, (crate / rest).read_text(encoding="utf-8")
        elif key == "old":
            old = rest
            if text.count(old) != 1:
                yield f"'{old.strip()}' stands {text.count(old)} times in {name}"
        elif key == "new":
            text = text.replace(old, rest)


def crates() -> List[str]:
    """The crates of crates.txt."""
    lines = (ROOT / "crates.txt").read_text(encoding="utf-8").splitlines()
    return [line.split(":")[0].split()[0] for line in lines if ":" in line and not line.startswith("#")]


def without_blocks(text: str) -> str:
    """A document without its fenced blocks."""
    return re.sub(r"^```.*?^```$", "", text, flags=re.MULTILINE | re.DOTALL)


# ---------------------------------------------------------------------------
# Links and paths
# ---------------------------------------------------------------------------


def anchor_of(heading: str) -> str:
    """The anchor of a heading, as the usual viewers make it."""
    return re.sub(r"[^\w\- ]", "", heading.replace("`", "").lower()).replace(" ", "-")


def link_faults(document: str, text: str) -> List[str]:
    """The links and pictures of a document that lead nowhere."""
    faults = []
    for target in LINK.findall(without_blocks(text)):
        if "://" in target:
            continue
        file_part, _, anchor = target.partition("#")
        path = (ROOT / document).parent / file_part if file_part else ROOT / document
        if not path.exists():
            faults.append(f"{document}: the link {target} leads to no file")
        elif anchor:
            linked = text if not file_part else path.read_text(encoding="utf-8")
            if anchor not in [anchor_of(heading) for heading in HEADING.findall(without_blocks(linked))]:
                faults.append(f"{document}: the link {target} leads to no heading")
    return faults


def find_path(document: str, word: str) -> Optional[Path]:
    """The first file or folder that a path of a document names; None if there is none."""
    pattern = re.sub(r"\b[A-Z]{2,}\b(?!\.md)", "*", word).rstrip("/")
    bases = [ROOT, CRATES] if document in PLACING else [ROOT]
    for base in bases:
        if "*" not in pattern:
            if (base / pattern).exists():
                return base / pattern
        else:
            for found in base.glob(pattern):
                return found
    return None


def is_path(word: str) -> bool:
    """Whether a word in backticks is a path below the root."""
    return PATH.fullmatch(word) is not None and not word.startswith(("target/", "out/")) and "/out/" not in word


def pieces_of(text: str) -> List[str]:
    """The headings, paragraphs, list items and table rows of a document."""
    return re.split(r"\n(?=[|#]|- |\d+\. )|\n\n", without_blocks(text))


def has_file_named(name: str) -> bool:
    """Whether some file of the repository has this name."""
    folders = (ROOT, *(ROOT / folder for folder in ("docs", "examples", "speed", "tests", "tools")))
    return any((folder / name).exists() for folder in folders) or any(path.name == name for path in paths_below(CRATES))


def path_faults(document: str, text: str) -> List[str]:
    """The paths and file names in backticks that do not exist."""
    faults = []
    for piece in pieces_of(text):
        crate = "crates/*"
        for word in (word for code in CODE.findall(piece) for word in code.split()):
            word = word[2:] if word.startswith("./") else word
            if is_path(word):
                crate = "/".join(word.split("/")[:2]) if word.startswith("crates/") else crate
                whole = f"{crate}/{word}" if word.startswith(CRATE_FOLDERS) else word
                if find_path(document, whole) is None:
                    faults.append(f"{document}: there is no {whole}")
            elif FILE_NAME.fullmatch(word) and not CAPITALS.fullmatch(word.split(".")[0]) and not has_file_named(word):
                faults.append(f"{document}: no file has the name {word}")
    return faults


# ---------------------------------------------------------------------------
# Names and their places
# ---------------------------------------------------------------------------


class Claim(NamedTuple):
    """A name that a document gives, and where it says that it stands: a path, `edit`, or nothing."""

    name: str
    place: str


def claims_of(piece: str) -> Iterator[Claim]:
    """The names of a cell or a paragraph with their places, in the order of the text."""
    pending: List[str] = []
    is_edit = False
    end = 0
    for match in CODE.finditer(piece):
        between, word = piece[end:match.start()], match.group(1)
        end = match.end()
        if ";" in between or re.search(r"\.\s", between):
            yield from (Claim(name, "") for name in pending)
            pending, is_edit = [], False
        is_edit = is_edit or "must-fail" in between
        if is_path(word) or FILE_NAME.fullmatch(word):
            place = word if re.search(r"(\bin|\()\s*$", between) else ""
            yield from (Claim(name, place) for name in pending)
            pending, is_edit = [], False
        elif NAME.fullmatch(word) and is_edit:
            yield Claim(word, "edit")
        elif NAME.fullmatch(word):
            pending.append(word)
    yield from (Claim(name, "") for name in pending)


def cells_of(line: str) -> List[str]:
    """The cells of a row of a table."""
    return [cell.strip() for cell in line.strip().strip("|").split("|")]


def only_paths(cell: str) -> List[str]:
    """The paths of a cell that has nothing but paths; none of any other cell."""
    words = CODE.findall(cell)
    return words if words and all(is_path(word) for word in words) and not CODE.sub("", cell).strip(" ,") else []


def placed_text(document: str, place: str, default: str) -> Optional[str]:
    """The text of the file or folder that a place names, a bare file name beside the section's own; None if there is none."""
    if "/" not in place:
        folder = find_path(document, default) if default else None
        if folder is not None:
            beside = (folder if folder.is_dir() else folder.parent) / place
            return text_of(beside) if beside.exists() else None
        return None
    path = find_path(document, place)
    return None if path is None else text_of(path)


def claim_faults(document: str, claims: Iterator[Claim], default: str, is_first_cell: bool) -> List[str]:
    """The claims that are not so."""
    faults = []
    for name, place in claims:
        if place == "edit":
            if name not in edits():
                faults.append(f"{document}: there is no must-fail edit {name}")
            continue
        if not place and is_first_cell and default:
            place = default
        text = placed_text(document, place, default) if place else all_sources()
        if text is None or not (is_declared(name, text) if place else occurs(name, text)):
            faults.append(f"{document}: {name} does not stand in {place or 'any source'}")
    return faults


def name_faults(document: str, text: str) -> List[str]:
    """The names of a document that do not stand where it says."""
    faults = []
    default = ""
    for piece in pieces_of(text):
        if piece.startswith("#"):
            default = ""
        elif piece.startswith("|"):
            cells = cells_of(piece)
            files = only_paths(cells[-1])
            if files:
                texts = "\n".join(text_of(path) for path in (find_path(document, file) for file in files) if path is not None)
                for word in CODE.findall(cells[0]):
                    if NAME.fullmatch(word) and not is_declared(word, texts):
                        faults.append(f"{document}: {word} does not stand in {', '.join(files)}")
                cells = cells[1:]
            for number, cell in enumerate(cells):
                faults += claim_faults(document, claims_of(cell), default, number == 0 and not files)
        else:
            begins = re.match(r"\s*(?:All in|In) `([^`]+)`", piece)
            default = begins.group(1) if begins else default
            faults += claim_faults(document, claims_of(piece), default, False)
    return faults


# ---------------------------------------------------------------------------
# Requirement ids and numbers
# ---------------------------------------------------------------------------


def requirements_in(text: str, heading: str) -> List[str]:
    """The ids in the first cells of the tables of a section."""
    section = text.partition(f"\n## {heading}\n")[2].partition("\n## ")[0]
    ids: List[str] = []
    for line in section.splitlines():
        if line.startswith("| CANSM"):
            ids += re.findall(r"\d{3}", re.sub(r"\(.*?\)", "", cells_of(line)[0]))
    return ids


def requirement_faults(text: str) -> List[str]:
    """The ids of 000 that do not stand in the trace once, and those in it that 000 has not."""
    found = requirements_in(text, IN_SCOPE) + requirements_in(text, OUT_OF_SCOPE)
    faults = [f"{TRACE}: CANSM{number} stands {found.count(number)} times" for number in REQUIREMENTS if found.count(number) != 1]
    return faults + [f"{TRACE}: 000 has no CANSM{number}" for number in found if number not in REQUIREMENTS]


@lru_cache(maxsize=None)
def counted() -> List[Tuple[str, int]]:
    """What the documents state as a number: the words, with the number in a group, and the number that was counted."""
    trace = documents()[TRACE]
    sheets = sheet_cases.parse_cases(sheet_cases.CASE_FILE.read_text(encoding="utf-8"))
    chart = text_of(CRATES / "decisions" / "stdout").splitlines()[1:]
    examples = text_of(CRATES / "network_theorems" / "specs" / "Examples.antt")
    moves = text_of(CRATES / "network_theorems" / "proofs" / "Moves.antt")
    passed_on = re.findall(r"^pub use \w+::(?:\{([^}]*)\}|(\w+));", text_of(CRATES / "manager" / "src" / "lib.rt"), re.MULTILINE)
    calls = [name for names in passed_on for name in re.findall(r"\w+", "".join(names)) if name.islower()]
    return [
        (r"\b([\d,]+) crates\b", len(crates())),
        (r"\b([\d,]+) must-fail edits", len(list(CRATES.glob(EDIT_FILES)))),
        (r"the ([\d,]+) cases of `tests/sheet_cases.txt`", len(sheets)),
        (r"the ([\d,]+) calls of `tests/manager_cases.py`", len(manager_cases.CALLS)),
        (r"the ([\d,]+) recordings of `tests/trace_cases.py`", len(trace_cases.all_cases())),
        (r"\b([\d,]+) stored inputs", len(trace_cases.all_cases())),
        (r"\b([\d,]+) decisions", sum(len(line.split()) - 1 for line in chart)),
        (r"\b([\d,]+) computed examples", len(re.findall(r"^ +(?:∷ )?case ", examples, re.MULTILINE))),
        (r"\b([\d,]+) moves", len(re.findall(r"^  pub (?!by_move)", moves, re.MULTILINE))),
        (r"\b([\d,]+|[a-z]+) public calls", len(calls)),
        (r"\b([\d,]+|[a-z]+) recordings as scripts", len(list((ROOT / "examples").glob("*.script")))),
        (r"000 numbers ([\d,]+) items", len(REQUIREMENTS)),
        (r"([\d,]+) of them are in scope", len(requirements_in(trace, IN_SCOPE))),
        (r"the other ([\d,]+) stand in the next section", len(requirements_in(trace, OUT_OF_SCOPE))),
    ]


SMALL_WORDS = "two three four five six seven eight nine ten eleven twelve thirteen fourteen fifteen".split()
SMALL_NUMBERS = {word: number for number, word in enumerate(SMALL_WORDS, start=2)}


def number_of(word: str) -> Optional[int]:
    """The number that a word is; None of another word."""
    return int(word.replace(",", "")) if word[0].isdigit() else SMALL_NUMBERS.get(word)


def unstated(text: str, rules: List[Tuple[str, int]]) -> List[str]:
    """The rules by which a text states no number: what they count is not compared with anything."""
    return [f"no document has a number in '{words}'" for words, _ in rules if all(number_of(word) is None for word in re.findall(words, text))]


def number_faults(document: str, text: str, rules: List[Tuple[str, int]]) -> List[str]:
    """The stated numbers that are not the counted ones."""
    faults = []
    for words, wanted in rules:
        for match in re.finditer(words, text):
            if number_of(match.group(1)) not in (None, wanted):
                faults.append(f"{document}: '{match.group(0)}', and {wanted} were counted")
    return faults


# ---------------------------------------------------------------------------
# Commands
# ---------------------------------------------------------------------------


def block_lines(text: str) -> Iterator[str]:
    """The lines of the indented and the fenced blocks of a document, each up to two blanks in a row; a backslash joins two."""
    fenced = False
    after_blank = True
    for line in re.sub(r"\\\n\s*", "", text).splitlines():
        if line.startswith("```"):
            fenced = not fenced
        elif fenced or (line.startswith("    ") and after_blank):
            yield re.split(r"  +", line.strip())[0]
        after_blank = not line.strip() or (line.startswith("    ") and after_blank)


def is_command(line: str) -> bool:
    """Whether a line is a command: a single word is the name of a file, but for two."""
    return line in ("./test", "./cantrace") or (line.startswith(COMMAND_STARTS) and " " in line)


def commands_of(text: str) -> List[str]:
    """The commands of a document in its order, each once."""
    lines = [*block_lines(text), *CODE.findall(without_blocks(text))]
    commands = [line.split(" #")[0].strip() for line in lines if is_command(line)]
    return list(dict.fromkeys(commands))


def program_of(command: str) -> str:
    """What a command runs: of `python3 FILE` the file."""
    words = [word for word in command.split() if word != "-B"]
    return words[1] if words[0] == "python3" and len(words) > 1 and not words[1].startswith("-") else words[0]


def kind_of(command: str) -> str:
    """How a command is tried; the text at the top has the rule."""
    if command.startswith("rt "):
        return "toolchain"
    if CAPITALS.search(QUOTED.sub("''", command)):
        return "form"
    if command.startswith(LONG_COMMANDS) or "unittest" in command:
        return "long"
    return "built" if "./cantrace" in command else "cheap"


def is_there(program: str) -> bool:
    """Whether a program of the repository exists and can be run, or is one of the machine."""
    if "/" not in program:
        return shutil.which(program) is not None or program in ("rt", "git")
    path = ROOT / program
    return path.is_file() and (path.suffix == ".py" or os.access(path, os.X_OK))


def is_built() -> bool:
    """Whether the program is built, from the sources as they are."""
    program = CRATES / "cantrace" / "out" / "cantrace"
    if not program.exists():
        return False
    sources = [ROOT / "crates.txt", *(path for path in paths_below(CRATES) if path.is_file() and "must-fail" not in path.parts)]
    return all(path.stat().st_mtime <= program.stat().st_mtime for path in sources)


def can_run(command: str) -> bool:
    """Whether this machine has the programs of a command."""
    parts = re.split(r"\||&&|;", QUOTED.sub("''", command))
    return all(shutil.which(part.split()[0]) or "/" in part.split()[0] for part in parts if part.strip())


def run_in(folder: Path, command: str) -> Optional[str]:
    """Runs a command; what went wrong, or None."""
    shell = ["bash", "-c", f"set -eo pipefail; export PYTHONDONTWRITEBYTECODE=1; {command}"]
    done = subprocess.run(shell, cwd=folder, stdin=subprocess.DEVNULL, capture_output=True, timeout=SECONDS_OF_A_COMMAND, check=False)
    if done.returncode == 0:
        return None
    last = (done.stdout + done.stderr).decode("utf-8", "replace").strip().splitlines()[-3:]
    return f"exit status {done.returncode}: {' / '.join(last)}"


def files_of(folder: Path) -> Dict[str, bytes]:
    """The files of a copy of the repository, with their bytes."""
    return {str(path.relative_to(folder)): path.read_bytes() for path in folder.rglob("*") if path.is_file()}


def command_faults(document: str, command: str, folder: Path) -> List[str]:
    """What is wrong with a command. It is run in the folder, a copy of the repository; the built program is that of the repository itself."""
    kind = kind_of(command)
    if kind == "toolchain":
        return [] if command.split()[1] in RT_COMMANDS else [f"{document}: rt has no command as in '{command}'"]
    if not is_there(program_of(command)):
        return [f"{document}: the program of '{command}' is not there"]
    wrong = None
    if kind == "cheap" and can_run(command):
        wrong = run_in(folder, command)
    elif kind == "built" and is_built() and can_run(command):
        wrong = run_in(folder, command.replace("./cantrace", str(ROOT / "cantrace")))
    return [f"{document}: '{command}': {wrong}"] if wrong else []


def copy_repository(folder: Path) -> None:
    """Copies the repository without what a build makes."""
    shutil.copytree(ROOT, folder, ignore=shutil.ignore_patterns(".git", *MADE))


def faults_of_commands(commands: Dict[str, str]) -> List[str]:
    """What is wrong with commands, each with its document, tried one after the other in one copy of the repository."""
    with tempfile.TemporaryDirectory() as temporary:
        folder = Path(temporary) / "copy"
        copy_repository(folder)
        before = files_of(folder)
        faults = [fault for command, document in commands.items() for fault in command_faults(document, command, folder)]
        after = files_of(folder)
    return faults + [f"a command changed {path}" for path in before if after.get(path) != before[path]]


def indented_blocks(text: str) -> List[List[str]]:
    """The blocks of lines that a document sets apart by four blanks or more, in a list or not, each without its margin."""
    blocks = re.split(r"\n\s*\n", text)
    lines = [block.splitlines() for block in blocks if all(line.startswith("    ") for line in block.splitlines())]
    return [textwrap.dedent("\n".join(block)).splitlines() for block in lines]


# ---------------------------------------------------------------------------
# Tests
# ---------------------------------------------------------------------------


class Documents(unittest.TestCase):
    """The documents as they are."""

    def assert_none(self, faults: List[str]) -> None:
        """Fail with the faults, one in a line."""
        self.assertFalse(faults, "\n" + "\n".join(faults))

    def test_links_lead_somewhere(self):
        self.assert_none([fault for document, text in documents().items() for fault in link_faults(document, text)])

    def test_paths_exist(self):
        self.assert_none([fault for document, text in documents().items() for fault in path_faults(document, text)])

    def test_names_stand_where_it_is_said(self):
        self.assert_none([fault for document in PLACING for fault in name_faults(document, documents()[document])])

    def test_every_requirement_of_000_stands_once(self):
        self.assert_none(requirement_faults(documents()[TRACE]))

    def test_every_crate_is_described(self):
        section = documents()[ARCHITECTURE].partition("\n## The crates\n")[2].partition("\n## ")[0]
        described = [name for line in section.splitlines() if line.startswith("|") for name in CODE.findall(cells_of(line)[0])]
        self.assertEqual(sorted(described), sorted(crates()))

    def test_every_edit_is_named(self):
        self.assertTrue(edits())
        self.assert_none([f"{TRACE} does not name the edit {name}" for name in sorted(edits()) if f"`{name}`" not in documents()[TRACE]])

    def test_every_edit_can_be_made(self):
        texts = {path: path.read_text(encoding="utf-8") for path in CRATES.glob(EDIT_FILES)}
        self.assert_none([f"{path.stem}: {fault}" for path, edit in texts.items() for fault in edit_faults(path.parent.parent, edit)])

    def test_numbers_are_the_counted_ones(self):
        self.assert_none(unstated("\n".join(documents().values()), counted()))
        self.assert_none([fault for document, text in documents().items() for fault in number_faults(document, text, counted())])

    def test_commands_can_be_run(self):
        tried: Dict[str, str] = {}
        for document, text in documents().items():
            for command in commands_of(text):
                tried.setdefault(command, document)
        self.assertEqual({kind_of(command) for command in tried}, {"form", "toolchain", "long", "built", "cheap"})
        self.assert_none(faults_of_commands(tried))


    def test_recordings_are_those_shown(self):
        """What README shows of a script stands in a file, and what it shows of the words for an output is what `explain` writes."""
        shown = [block for block in indented_blocks(documents()["README.md"]) if block]
        script = (ROOT / "examples" / "first.script").read_text(encoding="utf-8")
        self.assertIn(script.splitlines(), shown)
        for example, begin, length in (
            ("first", "11 0 ", 6), ("stall", "14 0 ", 10), ("silent", "7 8 ", 2), ("silent", "11 36 ", 2), ("silent", "22 37 ", 2),
            ("two-chips", "16 0 ", 7), ("refused-sheet", "config 52 ", 3), ("under-repair", "17 0 ", 5), ("under-repair", "25 0 ", 3),
            ("under-repair", "29 0 ", 2),
        ):
            explained = [sys.executable, "-B", "tools/recording", "explain", f"examples/{example}.script", f"examples/{example}.txt"]
            words = subprocess.run(explained, cwd=ROOT, stdout=subprocess.PIPE, check=True).stdout.decode().splitlines()
            quoted = [block for block in shown if block[0].startswith(begin)]
            with self.subTest(example, begin=begin):
                self.assertEqual([len(block) for block in quoted], [length])
                self.assertIn("\n".join(quoted[0]), "\n".join(words))

    def test_outputs_side_by_side_are_those_shown(self):
        left, right = [(ROOT / "examples" / f"{name}-the-threshold.txt").read_text(encoding="utf-8").splitlines() for name in ("at", "above")]
        beside = [f"{one:<26}{other}" for one, other in zip(left, right)]
        quoted = [block for block in indented_blocks(documents()["README.md"]) if block and block[0].startswith("20 0 8:7:1")]
        self.assertEqual([len(block) for block in quoted], [13])
        self.assertIn("\n".join(quoted[0]), "\n".join(beside))

    def test_the_records_of_one_network_are_those_shown(self):
        """Beside either neighbour the records that name network 7 or its controller 3 are the line of README."""
        shown = indented_blocks(documents()["README.md"])
        for name in ("calm", "noisy"):
            output = (ROOT / "examples" / f"{name}-neighbour.txt").read_text(encoding="utf-8")
            self.assertIn([" ".join(re.findall(r"(?<= )(?:[13]:3|[678]:7):\d+", output))], shown)


class FaultsAreFound(unittest.TestCase):
    """A document with a fault is not passed."""

    def test_links(self):
        self.assertEqual(len(link_faults("README.md", "[a](docs/NOTHING.md) [b](#no-such-heading) ![c](docs/none.svg)")), 3)
        self.assertEqual(link_faults("README.md", "# One `thing`\n[a](docs/PROOFS.md#the-code) [b](#one-thing) [c](https://example.org/x)"), [])

    def test_paths(self):
        self.assertEqual(len(path_faults("README.md", "`crates/nothing/src` `tests/nothing.py` `Nothing.antt` `manager/src/lib.rt`")), 4)
        right = "`manager/src/lib.rt`, `crates/NAME/must-fail/*.edit`, `target/bin/x`, `crates/cantrace/out/x`, `out/NAME`, `Careful.antt`"
        self.assertEqual(path_faults(TRACE, right), [])

    def test_edits(self):
        with tempfile.TemporaryDirectory() as folder:
            (Path(folder) / "code").write_text("one\n  two\ntwo\n", encoding="utf-8")
            for edit, faults in (
                ("# a: b\nfile: code\nold: one\nnew: three\nold: three\nnew: two", 0),
                ("file: code\nold:   two\nnew:   four\nold: two\nnew: one", 0),
                ("file: code\nold: two\nnew: four", 1),
                ("file: code\nold: three\nnew: four", 1),
                ("file: code\nold: one\nnew: two\nold: two\nnew: one", 1),
            ):
                self.assertEqual(len(list(edit_faults(Path(folder), edit))), faults)

    def test_names(self):
        wrong = [
            "`handed_out` in `slots/specs/Manager.antt`",
            "`handed_out`, `no_such_name` in `slots/specs/Calls.antt`",
            "| `handed_out` | x | `crates/slots/specs/Manager.antt` |",
            "In `crates/manager_theorems/proofs`.\n\n| `tick_two` | x |",
            "must-fail `no_such_edit`",
            "`this_stands_nowhere`",
        ]
        for text in wrong:
            self.assertEqual(len(name_faults(TRACE, text)), 1, text)
        right = "`handed_out` in `slots/specs/Calls.antt`; `Careful`, `Sound` (`manager_theorems/specs/Careful.antt`); must-fail `fixed_answer`"
        self.assertEqual(name_faults(TRACE, right), [])

    def test_requirements(self):
        text = documents()[TRACE]
        self.assertTrue(requirement_faults(text.replace("CANSM032 ", "CANSM033 ")))
        self.assertTrue(requirement_faults(text.replace(", 429 |", " |")))

    def test_numbers(self):
        rules = [(r"([\d,]+) decisions", 1080), (r"([\d,]+|[a-z]+) recordings", 4)]
        self.assertEqual(number_faults("", "1,080 decisions, four recordings, the recordings", rules), [])
        self.assertEqual(len(number_faults("", "1,081 decisions, three recordings", rules)), 2)
        self.assertEqual(unstated("1,080 decisions, four recordings", rules), [])
        self.assertEqual(len(unstated("all decisions, the recordings", rules)), 2)

    def test_commands(self):
        text = "    python3 tests/decisions.py --check    compares\n                  more words\n\n```\nrt ci\n```\n`tests/differential [N] [SEED]`"
        self.assertEqual(commands_of(text), ["python3 tests/decisions.py --check", "rt ci", "tests/differential [N] [SEED]"])
        kinds = {"rt nothing": "toolchain", "./test": "long", "sed x y | ./cantrace": "built", "./cantrace < FILE": "form", "sed 1d x": "cheap",
                 "tools/draw steps": "long", "tools/draw recovery": "cheap"}
        self.assertEqual({command: kind_of(command) for command in kinds}, kinds)
        for command in ("rt nothing", "tests/nothing --check", "python3 tests/nothing.py", "python3 tests/decisions.py --check nothing | false"):
            self.assertEqual(len(command_faults("", command, ROOT)), 1, command)

    def test_commands_that_change_files(self):
        commands = ("sed -i 1d crates.txt", "cat crates.txt > new.txt", "cmp crates.txt new.txt")
        self.assertEqual(faults_of_commands(dict.fromkeys(commands, "")), ["a command changed crates.txt"])


if __name__ == "__main__":
    unittest.main()
