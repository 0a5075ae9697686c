"""Each subcommand: from the octets of an input to the text of its answers and the exit status."""

from .check_source import checked
from .dialogue import answered
from .eval_dialogue import EvalDialogue
from .ports_dialogue import ported
from .run_dialogue import RunDialogue

SUBCOMMANDS = {
    "check": checked,
    "eval": lambda text: answered(text, EvalDialogue()),
    "run": lambda text: answered(text, RunDialogue()),
    "ports": ported,
}
