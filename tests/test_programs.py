"""The commands at the root and in `speed`: called wrongly, each says how it is used and exits with 2; the order of `./test`; how far `./cantrace` is.

Nothing is built here: what the commands call is replaced by programs that write down how they were called.
"""

import os
import shutil
import subprocess
import tempfile
import unittest
from pathlib import Path

ROOT = Path(__file__).resolve().parent.parent
SECONDS = 60


class UsageTest(unittest.TestCase):
    """What a command says that is called wrongly."""

    def assert_usage(self, words, usage):
        done = subprocess.run(words, cwd=ROOT, stdin=subprocess.DEVNULL, stdout=subprocess.PIPE, stderr=subprocess.PIPE, check=False)
        self.assertEqual((done.returncode, done.stdout), (2, b""), words)
        self.assertTrue(done.stderr.decode().startswith(usage), done.stderr)

    def test_cantrace_takes_no_argument(self):
        self.assert_usage(["./cantrace", "examples/whole-case.script"], "usage: ./cantrace < FILE")
        self.assert_usage(["./cantrace", "--help"], "usage: ./cantrace < FILE")

    def test_speed_takes_one_word(self):
        self.assert_usage(["speed/run", "all"], "usage: speed/run [sums]")


# Writes down how it was called, and then does what the file `script` has.
FAKE_COMMAND = """#!/bin/sh
called="{name} $*"
echo "$called" >>"{folder}/calls"
. "{folder}/script"
"""
# What the gate says where all is well.
GATE_OK = "rt: ok; handles allowed: none; must-fail edits: 1 refused; every proof and must-fail edit was done in this run"
GATE_LINES = 'case $called in "rt ci") echo "{}"; echo "2 passed, 0 failed" ;; esac'
GOOD_GATE = GATE_LINES.format(GATE_OK)
QUICK_CALLS = [
    "python3 -B -m unittest discover -q -s tests",
    "python3 -B tests/sheet_cases.py --check",
    "python3 -B tests/decisions.py --check",
    "python3 -B tests/manager_cases.py --check",
    "python3 -B tests/examples.py --check",
    "python3 -B tests/trace_cases.py --check",
]
COMPARISONS = [
    "differential 4000",
    "python3 -B -m unittest discover -q -s tests -p test_documents.py",
    "run sums",
]


class FakedTest(unittest.TestCase):
    """A folder of its own with a command of the root, and programs that stand in for what the command calls."""

    def setUp(self):
        folder = tempfile.TemporaryDirectory()
        self.addCleanup(folder.cleanup)
        self.folder = Path(folder.name)
        (self.folder / "calls").touch()

    def fake(self, path):
        """A program that writes down how it was called."""
        program = self.folder / path
        program.parent.mkdir(parents=True, exist_ok=True)
        program.write_text(FAKE_COMMAND.format(name=program.name, folder=self.folder), encoding="utf-8")
        program.chmod(0o755)

    def start(self, command, script):
        """Starts a command of the root; each program that stands in for another does what the script says."""
        (self.folder / "script").write_text(script + "\n", encoding="utf-8")
        shutil.copy(ROOT / command, self.folder / command)
        environment = {**os.environ, "PATH": f"{self.folder / 'bin'}{os.pathsep}{os.environ['PATH']}"}
        environment.pop("CC", None)
        pipe = subprocess.PIPE
        return subprocess.Popen([f"./{command}"], cwd=self.folder, env=environment, stdin=subprocess.DEVNULL, stdout=pipe, stderr=pipe, text=True)

    def finished(self, process):
        """The exit status, the lines of the output and of what was said beside."""
        with process:
            output, said = process.communicate(timeout=SECONDS)
        return process.returncode, output.splitlines(), said.splitlines()

    def calls(self):
        """What was called, in its order."""
        return (self.folder / "calls").read_text(encoding="utf-8").splitlines()


class GateTest(FakedTest):
    """In which order `./test` does what it does, and what its last line is."""

    def setUp(self):
        super().setUp()
        for path in ("bin/rt", "bin/python3", "bin/x86_64-linux-gnu-gcc", "bin/qemu-x86_64", "tests/differential", "speed/run"):
            self.fake(path)

    def run_test(self, script):
        """The exit status of `./test`, the lines of its output and of what it said beside."""
        return self.finished(self.start("test", f'echo "output of $called"\n{script}'))

    def test_a_good_run_ends_with_the_line_of_the_gate(self):
        status, output, said = self.run_test(GOOD_GATE)
        self.assertEqual((status, said), (0, []))
        self.assertEqual(output[-1], "2 passed, 0 failed")
        self.assertEqual([line for line in output if "passed" in line], ["2 passed, 0 failed"])
        self.assertEqual(self.calls(), [*QUICK_CALLS, "rt ci", *COMPARISONS])
        self.assertLess(output.index(GATE_OK), output.index("output of differential 4000"))

    def test_a_failing_gate_is_shown_whole_and_nothing_follows(self):
        failing = 'case $called in "rt ci") echo "rt: FAILED: steps"; echo "1 passed, 1 failed"; exit 3 ;; esac'
        status, output, said = self.run_test(failing)
        self.assertEqual((status, said), (3, []))
        self.assertEqual(output[-2:], ["rt: FAILED: steps", "1 passed, 1 failed"])
        self.assertEqual(self.calls(), [*QUICK_CALLS, "rt ci"])

    def test_edits_that_could_not_be_tried_fail(self):
        for edits, passes in (
            ("1 refused", True), ("154 refused, 3 of them only by a limit", True), ("1 refused, 1 bad", False),
            ("154 refused, 3 of them only by a limit, 12 bad", False), ("0 refused, 1 bad", False),
        ):
            (self.folder / "calls").write_text("", encoding="utf-8")
            status, output, said = self.run_test(GATE_LINES.format(GATE_OK.replace("1 refused", edits)))
            if passes:
                self.assertEqual((status, output[-1], said), (0, "2 passed, 0 failed", []), edits)
            else:
                self.assertEqual((status, said), (1, [f"test: FAILED: must-fail edits: {edits}"]), edits)
                self.assertEqual([line for line in output if "passed" in line], [], edits)
                self.assertEqual(self.calls(), [*QUICK_CALLS, "rt ci"])

    def test_a_gate_that_tells_nothing_of_edits_fails(self):
        for line in ("rt: note: nothing", "rt: ok; handles allowed: none; every proof and must-fail edit was done in this run"):
            status, output, said = self.run_test(GATE_LINES.format(line))
            self.assertEqual((status, said), (1, ["test: FAILED: the gate did not say how many must-fail edits were refused"]))
            self.assertEqual([line for line in output if "passed" in line], [])

    def test_a_gate_that_ends_without_a_word_fails_too(self):
        status, output, _ = self.run_test('case $called in "rt ci") exit 2 ;; esac')
        self.assertEqual((status, output[-1]), (2, "output of rt ci"))
        self.assertEqual(self.calls()[-1], "rt ci")

    def test_after_a_failing_comparison_no_line_says_passed(self):
        for number, comparison in enumerate(COMPARISONS, start=1):
            (self.folder / "calls").write_text("", encoding="utf-8")
            status, output, said = self.run_test(f'{GOOD_GATE}\ncase $called in "{comparison}") exit 1 ;; esac')
            self.assertEqual(status, 1, comparison)
            self.assertEqual([line for line in output if "passed" in line], [], comparison)
            self.assertEqual([line[:14] for line in said], ["test: FAILED: "], comparison)
            self.assertEqual(self.calls(), [*QUICK_CALLS, "rt ci", *COMPARISONS[:number]])

    def test_after_a_failing_quick_check_the_gate_is_not_run(self):
        for number, check in enumerate(QUICK_CALLS, start=1):
            (self.folder / "calls").write_text("", encoding="utf-8")
            status, output, said = self.run_test(f'{GOOD_GATE}\ncase $called in "{check}") exit 1 ;; esac')
            self.assertEqual((status, output[-1]), (1, f"output of {check}"))
            self.assertEqual([line[:14] for line in said], ["test: FAILED: "], check)
            self.assertEqual(self.calls(), QUICK_CALLS[:number])

    def test_the_gate_is_shown_as_it_goes(self):
        waits = f"""
            case $called in "rt ci")
                echo one; echo two; left=100
                while [ ! -e "{self.folder}/seen" ] && [ $left -gt 0 ]; do sleep 0.1; left=$((left - 1)); done
                [ -e "{self.folder}/seen" ] || exit 1 ;;
            esac
            {GOOD_GATE}
        """
        with self.start("test", waits) as process:
            for line in process.stdout:
                if line == "one\n":
                    break
            (self.folder / "seen").touch()
            output, _ = process.communicate(timeout=SECONDS)
        self.assertEqual(process.returncode, 0)
        self.assertEqual(output.splitlines()[-1], "2 passed, 0 failed")


CRATES_LIST = """# a comment: with a colon
low:
middle: low
other: low
top: low middle io
cantrace: top io libc # and another
beside: middle
"""
PROVING = """
case $called in
"rt run")
    for crate in low middle top cantrace; do
        echo "fn $crate::it: proved" >&2
        echo "crate $crate: modules loaded=1 checked=2" >&2
        echo "logic=proved functions=1" >&2
    done
    echo "a word beside" >&2
    mkdir -p out
    printf '#!/bin/sh\\necho the program\\n' >out/cantrace
    chmod +x out/cantrace
    echo "what the program writes for no input" ;;
"uname -m") echo x86_64 ;;
esac
"""
SAID_OF_A_FAILURE = [
    "crate low: modules loaded=1 checked=2", "logic=proved functions=1", "crate middle: modules loaded=1 checked=0", "logic=not-proved",
]
FAILING = "\n".join(["case $called in 'rt run')", *(f"echo '{line}' >&2" for line in SAID_OF_A_FAILURE), "exit 2 ;;", "esac"])


class ProgressTest(FakedTest):
    """What `./cantrace` says while the program is proved and built."""

    def setUp(self):
        super().setUp()
        for path in ("bin/rt", "bin/uname"):
            self.fake(path)
        (self.folder / "crates" / "cantrace").mkdir(parents=True)
        (self.folder / "crates.txt").write_text(CRATES_LIST, encoding="utf-8")

    def run_cantrace(self, script):
        """The exit status of `./cantrace`, the lines of its output and of what it said beside."""
        return self.finished(self.start("cantrace", script))

    def test_each_crate_is_counted_and_named(self):
        status, output, said = self.run_cantrace(PROVING)
        self.assertEqual((status, output), (0, ["the program"]))
        self.assertEqual(said, [
            "cantrace: building the program, which proves the 4 crates that it is made of; this takes a few minutes",
            "cantrace: proved crate 1 of 4: low",
            "cantrace: proved crate 2 of 4: middle",
            "cantrace: proved crate 3 of 4: top",
            "cantrace: proved crate 4 of 4: cantrace",
        ])
        log = (self.folder / "target" / "cantrace.log").read_text(encoding="utf-8")
        self.assertEqual(len(log.splitlines()), 13)
        self.assertIn("a word beside", log)

    def test_what_is_built_is_not_built_again(self):
        self.run_cantrace(PROVING)
        self.assertEqual(self.run_cantrace(PROVING), (0, ["the program"], []))
        self.assertEqual(self.calls().count("rt run"), 1)

    def test_it_is_built_again_where_a_source_is_newer(self):
        source, made = self.folder / "crates" / "low" / "src" / "lib.rt", self.folder / "crates" / "low" / "out" / "stdout"
        for path in (source, made):
            path.parent.mkdir(parents=True)
            path.touch()
        self.run_cantrace(PROVING)
        program = self.folder / "crates" / "cantrace" / "out" / "cantrace"
        later = program.stat().st_mtime + 10
        for path, builds in ((made, 1), (source.parent.parent, 1), (source, 2)):
            os.utime(path, (later, later))
            self.run_cantrace(PROVING)
            self.assertEqual(self.calls().count("rt run"), builds, path)

    def test_a_failing_build_says_where_the_log_is(self):
        status, output, said = self.run_cantrace(FAILING)
        log = (self.folder / "target" / "cantrace.log").resolve()
        self.assertEqual((status, output), (1, []))
        self.assertEqual(said[1:], ["cantrace: proved crate 1 of 4: low", f"cantrace: the program could not be built; {log} has what rt said"])
        self.assertEqual(log.read_text(encoding="utf-8").splitlines(), SAID_OF_A_FAILURE)


if __name__ == "__main__":
    unittest.main()
