"""Compares `upc-lab trace` and `upc-lab list` with the reference on random inputs of `upc eval`, and `upc-lab explain` on such of
`upc check` and `upc run`, and on random texts of rules.

    python3 -m lab UPC UPC_LAB [COUNT] [SEED]

The steps of a trace are those of the reference's machine, and its other lines those of `upc eval`. A listing assembles to the
program that is listed, and ends with the comment of its longest run. The line, the column and the path of an explanation
are those of the reference, and so are the rules that have a hint; `upc-lab rules` has the same hints as comments. The last line is 'N passed, M failed'.
"""
import re
import sys

from lab.explaining import wrong_explanation
from lab.explaining_rules import rules_input, wrong_comments, wrong_rules_explanation
from lab.explaining_scripts import wrong_script_explanation
from lab.listing import longest_comment
from lab.tracing import TraceDialogue
from policer.decoding import decoded
from policer.dialogue import answered
from policer.eval_dialogue import EvalDialogue
from policer.hexadecimal import octets_of
from rules.__main__ import with_deep_stack
from trials.comparing import edges_of, first_difference, input_of, of_program

# First lines after which a source follows.
FIRST_LINES = [b"source\n", b"source\r\n", b"source \t\n", b"\t source \r\n"]
# And such after which a text of rules follows.
RULES_LINES = [b"rules\n", b"rules\r\n", b"rules \t\n", b"\t rules \r\n"]


def without_spelling(output):
    """Returns the output of `trace` without the instructions, and its status."""
    return re.sub(rb"(?m)^(L\d+): .* ; ", rb"\1 ; ", output[0]), *output[1:]


def wrong_trace(lab, text):
    """Returns the first difference of a trace, or None."""
    ours = without_spelling(of_program(lab, "trace", text))
    theirs = (*answered(text, TraceDialogue()), b"")
    return None if ours == theirs else first_difference(ours, theirs)


def wrong_list(upc, lab, text):
    """Returns what is wrong with the listing of the program in the first line of an input, or None."""
    first = text.split(b"\n")[0] + b"\n"
    ours, theirs = of_program(lab, "list", first), (*answered(first, EvalDialogue()), b"")
    if not theirs[0].startswith(b"accepted"):
        return None if ours == theirs else first_difference(ours, theirs)
    program = decoded(octets_of(first.split()[0]))
    if ours[0].split(b"\n")[-2:] != [longest_comment(program), b""]:
        return f"the listing doesn't end with {longest_comment(program)}"
    again = of_program(upc, "check", ours[0])[0].split(b"\n")
    is_same = again[0] + b"\n" == theirs[0] and decoded(octets_of(again[1])) == program
    return None if is_same else f"upc check of the listing prints {again[0]}"


def explanations(lab, count, seed):
    """Compares explanations, and returns how many failed and how many there were."""
    failed, numbers = 0, range(-len(edges_of("check")), count)
    for number in numbers:
        source = input_of("check", seed, number)
        wrong = wrong_explanation(source, of_program(lab, "explain", FIRST_LINES[number % len(FIRST_LINES)] + source))
        if wrong:
            failed += 1
            print(f"explain, input {number} of seed {seed}: {wrong}")
    return failed, len(numbers)


def script_explanations(lab, count, seed):
    """Compares explanations of scripts, and returns how many failed and how many there were."""
    failed, numbers = 0, range(-len(edges_of("run")), count)
    for number in numbers:
        script = input_of("run", seed, number)
        wrong = wrong_script_explanation(script, of_program(lab, "explain", script))
        if wrong:
            failed += 1
            print(f"explain, script {number} of seed {seed}: {wrong}")
    return failed, len(numbers)


def rules_explanations(lab, count, seed):
    """Compares explanations of texts of rules, and returns how many failed and how many there were."""
    failed = 0
    for number in range(count):
        text, is_all, source = rules_input(seed, number)
        ours = of_program(lab, "explain", RULES_LINES[number % len(RULES_LINES)] + text)
        compiled = of_program(lab, "rules", text)
        wrong = wrong_rules_explanation(text, is_all, ours, source) or (ours[1] == compiled[1] == 0 and wrong_comments(ours[0], compiled[2]))
        if wrong:
            failed += 1
            print(f"explain, rules {number} of seed {seed}: {wrong}")
    return failed, count


def main(upc, lab, count="200", seed="1"):
    """Compares, and returns the exit status."""
    failed, explained = explanations(lab, int(count), seed)
    failed_scripts, scripts = script_explanations(lab, int(count), seed)
    failed_rules, texts = rules_explanations(lab, int(count), seed)
    failed, explained = failed + failed_scripts + failed_rules, explained + scripts + texts
    numbers = range(-len(edges_of("eval")), int(count))
    for number in numbers:
        text = input_of("eval", seed, number)
        for name, wrong in (("trace", wrong_trace(lab, text)), ("list", wrong_list(upc, lab, text))):
            if wrong:
                failed += 1
                print(f"{name}, input {number} of seed {seed}: {wrong}")
    print(f"{2 * len(numbers) + explained - failed} passed, {failed} failed")
    return 1 if failed else 0


if __name__ == "__main__":
    sys.exit(with_deep_stack(lambda: main(*sys.argv[1:])))
