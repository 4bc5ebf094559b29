"""Compiles the programs of this folder."""
import os
import pathlib
import subprocess

HERE = pathlib.Path(__file__).resolve().parent
PROGRAMS = ["generator", "home", "relay", "launch", "spin", "waits", "digest"]
SHARED = ["common.c", "packet.c", "md5.c", "histogram.c"]
FLAGS = ["-std=c11", "-O2", "-Wall", "-Wextra", "-Werror"]


def compile_all(work, programs=PROGRAMS):
    """Leaves the programs, or some of them, in a folder."""
    compiler = os.environ.get("CC", "cc").split()
    for name in programs:
        sources = [HERE / f"{name}.c", *(HERE / other for other in SHARED)]
        subprocess.run([*compiler, *FLAGS, "-o", work / name, *sources], check=True)
