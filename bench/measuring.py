"""What `desk`, `captures` and `worst` share: the plain program, and the time and the memory of a process."""

import os
import re
import subprocess
import sys
import time

BENCH = os.path.dirname(os.path.realpath(__file__))
ROOT = os.path.dirname(BENCH)
OUT = f"{BENCH}/out"
UPC = os.environ.get("UPC", f"{ROOT}/crates/upc/out/upc")
LAB = os.environ.get("UPC_LAB", f"{ROOT}/crates/upc_lab/out/upc_lab")
PLAIN = f"{OUT}/plain"
SOURCES = [f"{BENCH}/{it}.rs" for it in ("plain", "captures", "policer", "ports")]


def build(*programs):
    """Builds the plain program if a source is newer, and those of `upc` and `upc-lab` that no variable names."""
    for program in programs:
        if program.upper().replace("-", "_") not in os.environ:
            subprocess.run([f"{ROOT}/bin/{program}", "--help"], stdout=subprocess.DEVNULL, check=True)
    os.makedirs(OUT, exist_ok=True)
    if not os.path.exists(PLAIN) or any(os.path.getmtime(it) > os.path.getmtime(PLAIN) for it in SOURCES):
        subprocess.run(["rustc", "--edition", "2024", "-O", "-o", PLAIN, SOURCES[0]], check=True)


def written(path, lines):
    with open(path, "w", encoding="ascii") as it:
        it.write("".join(f"{line}\n" for line in lines))


def ran(words, given, to, wanted=0):
    """Runs a program on a file. Returns its seconds. What it says is shown if it ends otherwise than is wanted."""
    with open(given, "rb") as text, open(to, "wb") as answers:
        begun = time.perf_counter()
        run = subprocess.run(words, stdin=text, stdout=answers, stderr=subprocess.PIPE)
        took = time.perf_counter() - begun
    if run.returncode != wanted:
        sys.exit(f"bench: {' '.join(words)} ended with {run.returncode}: {run.stderr.decode(errors='replace')}")
    return took


def memory_of(words, given):
    """Runs a program on a file. Returns the most memory in KiB that it was seen to have had: the kernel's own number for a process
    that has ended counts the one that started it, too."""
    most = 0
    with open(given, "rb") as text:
        process = subprocess.Popen(words, stdin=text, stdout=subprocess.DEVNULL, stderr=subprocess.DEVNULL)
        while process.poll() is None:
            try:
                is_started = os.readlink(f"/proc/{process.pid}/exe") == os.path.realpath(words[0])
                with open(f"/proc/{process.pid}/status", encoding="ascii") as it:
                    seen = re.search(r"^VmHWM:\s*(\d+) kB", it.read(), re.M)
            except OSError:
                continue
            if is_started and seen:
                most = max(most, int(seen[1]))
            time.sleep(0.0005)
    return most


def same(one, other):
    """Returns whether two files have the same octets."""
    return subprocess.run(["cmp", "-s", one, other]).returncode == 0
