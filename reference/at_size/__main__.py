"""`python3 -m at_size SCENE SUBCOMMAND SCRIPT ANSWERS` writes a scene's script and its answers to these files."""

import sys

from policer.ports_dialogue import with_totals
from policer.subcommands import SUBCOMMANDS

from .scenes import SCENES


def main(scene, subcommand, script_path, answers_path):
    script = "".join(line + "\n" for line in SCENES[scene](subcommand)).encode("ascii")
    answers, status = SUBCOMMANDS["run"](script)
    if status != 0:
        sys.exit("at_size: the reference doesn't answer the whole of %s" % scene)
    # No desk line of a scene touches what a later cell meets, so `ports` answers as `run` does.
    if subcommand == "ports":
        answers = with_totals(answers)
    for path, octets in ((script_path, script), (answers_path, answers)):
        with open(path, "wb") as file:
            file.write(octets)


main(*sys.argv[1:])
