"""Runs a built program of this project: as it is on x86-64, through an emulator on another machine.

The toolchain compiles programs for x86-64 Linux, and is itself for that machine. On another one such a program needs an emulator, `qemu-x86_64`,
and the loader and C library of x86-64. Where a toolchain has these three for the machine, they are found by RATTLE_HOME or by the place of `rt` on
the PATH. An emulator on the PATH is taken first.
"""

import os
import platform
import shutil
import subprocess
from pathlib import Path
from typing import Dict, List, Optional, Sequence

EMULATOR = "qemu-x86_64"
LOADER = "ld-linux-x86-64.so.2"
X86_64_MACHINES = ("x86_64", "amd64", "AMD64")
# The header of a program's file: its first bytes, and at 18 the kind of machine, low byte first.
ELF_START = b"\x7fELF"
ELF_MACHINE_PLACE = slice(18, 20)
ELF_X86_64 = b"\x3e\x00"


class CannotRun(Exception):
    """This machine has no way to run the program; the text says what is missing."""


def is_for_x86_64(program: Path) -> bool:
    """Whether the file is a program compiled for x86-64; a script is none."""
    with program.open("rb") as file:
        header = file.read(ELF_MACHINE_PLACE.stop)
    return header.startswith(ELF_START) and header[ELF_MACHINE_PLACE] == ELF_X86_64


def toolchain_folder(machine: str) -> Optional[Path]:
    """The folder of the toolchain that holds `bin` and `lib` for this kind of machine; None without a toolchain."""
    home = os.environ.get("RATTLE_HOME")
    command = shutil.which("rt")
    if home:
        return Path(home) / "on" / machine / "toolchain"
    if command:
        return Path(command).resolve().parent.parent / "on" / machine / "toolchain"
    return None


def command_of(program: Path, machine: str = platform.machine()) -> List[str]:
    """The command that runs the program on this kind of machine."""
    if machine in X86_64_MACHINES or not is_for_x86_64(program):
        return [str(program)]
    folder = toolchain_folder(machine)
    inside = None if folder is None else shutil.which(EMULATOR, path=str(folder / "bin"))
    emulator = shutil.which(EMULATOR) or inside
    if emulator is None:
        raise CannotRun(
            f"{program.name} is a program for x86-64 and this machine is {machine}: there is no {EMULATOR} on the PATH, "
            "and no rt, the command of the toolchain, which has one"
        )
    if folder is None or not (folder / "lib" / LOADER).exists():
        return [emulator, str(program)]
    library = folder / "lib"
    return [emulator, str(library / LOADER), "--library-path", str(library), str(program)]


def clean_environment() -> Dict[str, str]:
    """The environment without what would steer the emulator."""
    return {name: value for name, value in os.environ.items() if not name.startswith("QEMU_")}


def run(command: Sequence[str], data: bytes, seconds: float) -> "subprocess.CompletedProcess[bytes]":
    """Run a command on this standard input; it may take so many seconds."""
    return subprocess.run(command, input=data, capture_output=True, env=clean_environment(), timeout=seconds, check=False)
