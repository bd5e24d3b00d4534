"""The rules in C, against which the manager is measured: on recordings they give the very lines of the model.

What is measured, and compared by `speed/run sums`, has no field 07, no request for silent, no stall, no call to listen and no refusal; recordings
have all of them. A C compiler of this machine is needed; where there is none, the test is left out.
"""

import shutil
import subprocess
import tempfile
import unittest
from pathlib import Path
from random import Random
from typing import List

import batches
import model
import random_traces
import trace_cases

ROOT = Path(__file__).resolve().parent.parent
COMPILER = shutil.which("cc") or shutil.which("gcc")
FLAGS = ("-std=c11", "-O2", "-Wall", "-Wextra", "-Werror")
RANDOM_INPUTS = 300
LONGEST = 20_000
SEED = 24


def is_whole(lines: List[str]) -> bool:
    """An output of a good sheet and good events: the rules in C read neither."""
    return lines[0].startswith(f"config {model.ACCEPTED} ") and not lines[-1].startswith("stop")


class Yardstick(unittest.TestCase):
    def outputs(self, recordings: List[bytes]) -> List[str]:
        """What the rules in C write for each recording."""
        with tempfile.TemporaryDirectory() as folder:
            program = Path(folder) / "replay"
            sources = [str(ROOT / "speed" / name) for name in ("replay.c", "manager.c")]
            subprocess.run([COMPILER, *FLAGS, "-o", str(program), *sources], check=True)
            done = subprocess.run([str(program)], input=batches.pack(recordings), stdout=subprocess.PIPE, check=True)
        return batches.split_outputs(f"{batches.FIRST_LINE}\n{done.stdout.decode()}")

    @unittest.skipIf(COMPILER is None, "there is no C compiler")
    def test_recordings(self):
        random = Random(SEED)
        inputs = [case.data for case in trace_cases.all_cases() if len(case.data) <= LONGEST]
        inputs += [random_traces.random_input(random).data for _ in range(RANDOM_INPUTS)]
        outputs = [(data, model.cantrace_lines(data)) for data in inputs]
        whole = [(data, lines[1:]) for data, lines in outputs if is_whole(lines)]
        self.assertGreater(len(whole), 400)
        expected = ["".join(line + "\n" for line in lines) for _, lines in whole]
        found = self.outputs([data for data, _ in whole])
        self.assertEqual(len(found), len(expected))
        for (data, _), one, other in zip(whole, found, expected):
            self.assertEqual(one, other, data.hex())


if __name__ == "__main__":
    unittest.main()
