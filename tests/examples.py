#!/usr/bin/env python3
"""The recordings in `examples`: what the model of the rules writes for each.

Each `examples/NAME.script` is a recording as text, of which `tools/recording` makes the bytes, and `examples/NAME.txt` its expected
output. The whole case is also the program's own stored run, `crates/cantrace/stdin` and `stdout`. Without arguments it writes these
files; with --check it compares, and exits 1 if anything differs.
"""

import pathlib
import sys
from typing import Dict

import model

ROOT = pathlib.Path(__file__).resolve().parent.parent
sys.path.append(str(ROOT / "tools"))

from recording_script import recording_of  # found by the line above

EXAMPLES = ROOT / "examples"
PROGRAM = ROOT / "crates" / "cantrace"
WHOLE_CASE = EXAMPLES / "whole-case.script"


def expected_files() -> Dict[pathlib.Path, bytes]:
    """Each file that is made from the recordings, and what it has to hold."""
    files = {}
    for recording in sorted(EXAMPLES.glob("*.script")):
        data = recording_of(recording.read_bytes())
        output = model.cantrace(data).encode("ascii")
        files[recording.with_suffix(".txt")] = output
        if recording == WHOLE_CASE:
            files[PROGRAM / "stdin"] = data
            files[PROGRAM / "stdout"] = output
    return files


def main() -> int:
    """Write the files, or compare them."""
    files = expected_files()
    if "--check" not in sys.argv[1:]:
        for path, content in files.items():
            path.write_bytes(content)
        print(f"examples: {len(files)} files written")
        return 0
    differing = [path for path, content in files.items() if not path.is_file() or path.read_bytes() != content]
    for path in differing:
        print(f"examples: {path.relative_to(ROOT)} is not what the model writes")
    print(f"examples: {len(files) - len(differing)} of {len(files)} files agree with the model")
    return 1 if differing or PROGRAM / "stdin" not in files else 0


if __name__ == "__main__":
    sys.exit(main())
