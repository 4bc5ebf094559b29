"""The trials of the crate `spool_files` on a folder of the system, which are two of its tests."""
import os
import pathlib
import subprocess
from dataclasses import dataclass

WRITES, READS = "writes_to_a_folder", "reads_a_folder"


def environment_of(folder, numbers):
    """The environment in which a trial has a folder and these numbers."""
    return {**os.environ, "SPOOL_FOLDER": str(folder), **{f"SPOOL_{name.upper()}": str(number) for name, number in numbers.items()}}


@dataclass(frozen=True)
class Trials:
    """The trials of a program of tests."""

    program: str
    names: dict

    @classmethod
    def of(cls, program):
        path = str(pathlib.Path(program).resolve())
        listed = subprocess.run([path, "--list"], capture_output=True, text=True, check=True).stdout.splitlines()
        names = [line.removesuffix(": test") for line in listed]
        return cls(path, {trial: next(name for name in names if name.endswith(f"::{trial}")) for trial in (WRITES, READS)})

    def words(self, trial):
        return [self.program, self.names[trial]]

    def run(self, trial, folder, more=None, **numbers):
        """Runs a trial to its end."""
        environment = environment_of(folder, numbers) | (more or {})
        return subprocess.run(self.words(trial), env=environment, capture_output=True, text=True, timeout=600)
