"""Runs the program for bench/damage.py and bench/limits.py, and makes folders with it."""
import os
import shutil
import subprocess
import sys
from dataclasses import dataclass
from pathlib import Path

import stored

PROGRAM = Path(__file__).resolve().parent.parent / "crates/indri/out/indri"
SECONDS = 20

FIRST = b"<DOC><DOCNO>d1</DOCNO>a b</DOC>"
SECOND = b"<DOC><DOCNO>d2</DOCNO>a</DOC>"


@dataclass
class Runner:
    """The program, a room for folders, and how long a run may take."""

    program: Path
    place: Path
    seconds: int = SECONDS

    def run(self, folder, words, text=b""):
        """The lines and the status of a command. A run that isn't done in time has the status -1."""
        try:
            done = subprocess.run(
                [self.program, folder, *words], input=text, stdout=subprocess.PIPE, timeout=self.seconds, check=False
            )
        except subprocess.TimeoutExpired:
            return [f"not done in {self.seconds} seconds"], -1
        lines = done.stdout.decode("latin-1")
        if lines and not lines.endswith("\n"):
            return [*lines.splitlines(), "a line without its end"], done.returncode
        return lines.splitlines(), done.returncode

    def folder(self, name, files):
        """A folder of this name, made anew with these files."""
        folder = self.place / name
        shutil.rmtree(folder, ignore_errors=True)
        folder.mkdir()
        for file, data in files.items():
            (folder / file).write_bytes(data)
        return folder

    def make(self, *commands):
        """The files of a folder in which these commands were run, `create` first."""
        folder = self.folder("made", {})
        for words, text in ((["create"], b""), *commands):
            lines, status = self.run(folder, words, text)
            if status not in (0, 3):
                sys.exit(f"{' '.join(words)} ended with status {status}: {lines[-1:]}")
        return stored.files_of(folder)


def stop_unless_built(program):
    if not os.access(program, os.X_OK):
        sys.exit("the program isn't built: run ./indri once")
