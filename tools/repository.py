"""What scripts ask of the repository without the toolchain."""
import os
import subprocess

ROOT = os.path.dirname(os.path.dirname(os.path.realpath(__file__)))


def crates():
    """Returns the names of the crates."""
    with open(f"{ROOT}/crates.txt", encoding="utf-8") as it:
        return [line.split(":")[0].split()[0] for line in it if ":" in line and not line.startswith("#")]


def output_of(*command):
    """Returns what a command prints."""
    return subprocess.run(command, cwd=ROOT, check=True, stdout=subprocess.PIPE, text=True).stdout.strip()
