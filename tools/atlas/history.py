"""What commits say: one that changes a contract or a figure says why, and one that changes a figure says the figure.

The rule is a sentence of docs/CONTRIBUTING.md and holds for the commits after the one that brought this sentence."""
import re
import subprocess

from .files import ROOT

RULE = "A commit that changes a contract or a figure of bench/RESULTS.md has a body"
CLAUSE = re.compile(r"^[+-]\s*(?:requires|ensures)\b")
NUMBER = re.compile(r"\b\d[\d.,]*")
FILE = re.compile(r"^\+\+\+ (?:b/)?(\S+)")


def git(*words):
    """Returns what git prints, or nothing if there is no history here."""
    ran = subprocess.run(["git", *words], cwd=ROOT, stdout=subprocess.PIPE, stderr=subprocess.DEVNULL, text=True, errors="replace")
    return ran.stdout if ran.returncode == 0 else ""


def changes(diff):
    """Returns what the lines of a diff change: 'contract', 'figure', both or nothing."""
    found, file, figures = set(), "", {"-": [], "+": []}
    for line in diff.split("\n"):
        named = FILE.match(line)
        if named:
            file = named[1]
        elif not line.startswith(("+", "-")) or line.startswith("---"):
            continue
        elif file == "bench/RESULTS.md":
            if line[1:].startswith("|"):
                figures[line[0]] += NUMBER.findall(line)
        elif re.match(r"crates/\w+/specs/(?!inner/).*\.antt$", file):
            if line[1:].strip() and not line[1:].strip().startswith(("--", "use ", "pub use ", "pub mod ")):
                found.add("contract")
        elif re.match(r"crates/\w+/src/.*\.rt$", file) and CLAUSE.match(line):
            found.add("contract")
    # A row of which only names changed has the figures that it had.
    return found | ({"figure"} if figures["-"] != figures["+"] else set())


def fault(body, changed):
    """Returns what the body of a commit lacks that changes this, or None."""
    if changed and not body.strip():
        return f"changes a {' and a '.join(sorted(changed))} and has no body with the reason"
    if "figure" in changed and not re.search(r"\d", body):
        return "changes a figure, which its body doesn't have"
    return None


def silent():
    """Yields each commit after the rule that doesn't say what it has to."""
    first = git("log", "--reverse", "--format=%H", f"-S{RULE}", "--", "docs/CONTRIBUTING.md").split()
    if not first:
        return
    for commit in git("log", "--no-merges", "--format=%H", f"{first[0]}..HEAD").split():
        subject, _, body = git("log", "-1", "--format=%s%n%b", commit).partition("\n")
        diff = git("show", "--format=", "--unified=0", commit, "--", "crates/*/src/*", "crates/*/specs/*", "bench/RESULTS.md")
        lacks = fault(body, changes(diff))
        if lacks:
            yield f"commit {commit[:8]} ({subject}) {lacks}"
