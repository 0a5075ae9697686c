#!/usr/bin/env python3
"""Makes the constants and names of the library's errors from docs/FORMATS.md and the crate.

    tools/faults.py           writes the enums of include/upc.h and the lists of docs/upc.3 again
    tools/faults.py --check   reports whether they are what it would write, and whether the crate's kinds are the header's
    tools/faults.py --c       prints upc_strerror and upc_kind_name as C

The result of a call is 256 times the kind of its error, plus its number. Both files mark what is made by two comments,
`made by tools/faults.py` and `end of faults`.
"""
import os
import re
import sys

ROOT = os.path.dirname(os.path.dirname(os.path.realpath(__file__)))
FORMATS, HEADER, PAGE = (f"{ROOT}/{it}" for it in ("docs/FORMATS.md", "include/upc.h", "docs/upc.3"))
# The kinds in the order of their numbers, from 2, by the words of fault lines. Kind 1 is the call itself.
KINDS = ["cell", "decode", "asm", "verify", "gcra", "burst", "arrive", "shape", "desk", "rules"]
# The crate's constants of these kinds, from 1.
OF = "THE_CALL A_CELL DECODING ASSEMBLY THE_CHECK A_RATE A_BURST AN_ARRIVAL A_SHAPE THE_DESK RULES".split()
# Burst tolerances have no fault line: their errors are printed by the crate.
BURST = f"{ROOT}/crates/leaky/src/tolerance.rt"
# What no call reports: the law cards_report_no_other_fault, and NoMemory, which is an error of the call.
NEVER = {("arrive", 2), ("arrive", 3), ("desk", 9), ("desk", 11)}
LINE = re.compile(r"`(?:fault (\w+) )?(\d+) ([A-Z]\w+)[^`]*`")
# A place for what is made, between two comments.
MADE = re.compile(r"(made by tools/faults\.py[^\n]*\n).*?(^[^\n]*\bend of faults\b)", re.S | re.M)
CALL = re.compile(r"^\| (\d+) \| `UPC_(\w+)` \| (.*) \|$", re.M)


def text(path):
    """The text of a file."""
    with open(path, encoding="utf-8") as file:
        return file.read()


def snake(name):
    """BAD_LINE for BadLine."""
    return re.sub(r"(?<!^)(?=[A-Z])", "_", name).upper()


def faults():
    """Each error that a call may report, as (its result, its constant, the words of its kind, its name), in order."""
    formats, found = text(FORMATS), {}
    kind = ""
    for its_kind, number, name in LINE.findall(formats[formats.index("## Fault lines"):]):
        kind = its_kind or kind
        found.setdefault((kind, int(number)), name)
    for number, name in re.findall(r'"(\d) (\w+)"', text(BURST)):
        found[("burst", int(number))] = name
    calls = CALL.findall(formats)
    made = [(256 + int(number), f"UPC_{name}", "call", name.title().replace("_", "")) for number, name, _ in calls]
    for (kind, number), name in found.items():
        if kind in KINDS and (kind, number) not in NEVER and name != "NoMemory":
            made.append((256 * (KINDS.index(kind) + 2) + number, f"UPC_{kind.upper()}_{snake(name)}", kind, name))
    return sorted(made)


def in_header():
    """The enum of the errors that fault lines have."""
    rows = [(value, constant) for value, constant, kind, _ in faults() if kind != "call"]
    lines = [f"\t{constant} = {value}{',' if at + 1 < len(rows) else ''}" for at, (value, constant) in enumerate(rows)]
    return "\n".join(["enum upc_result {", *lines, "};"]) + "\n"


def in_page():
    """The constants as the manual has them."""
    names = [constant for _, constant, kind, _ in faults() if kind != "call"]
    return "\n".join(f".Dv {it} {',' if at + 1 < len(names) else '.'}" for at, it in enumerate(names)) + "\n"


def in_c():
    """The two functions that name errors and kinds."""
    kinds = [(0, "fine"), (1, "call")] + [(at + 2, kind) for at, kind in enumerate(KINDS)]
    rows = [f'\tcase {constant}: return "{kind} {value % 256} {name}";' for value, constant, kind, name in faults()]
    names = "\n".join(rows)
    words = "\n".join(f'\tcase {number}: return "{kind}";' for number, kind in kinds)
    return f"""#include "upc.h"

const char *upc_strerror(const upc_fault *fault)
{{
\tif (fault == NULL || (fault->kind == 0 && fault->number == 0))
\t\treturn "no fault";
\tif (fault->number > 255 || fault->kind > 255)
\t\treturn "unknown fault";
\tswitch (256 * fault->kind + fault->number) {{
{names}
\tdefault: return "unknown fault";
\t}}
}}

const char *upc_kind_name(uint32_t kind)
{{
\tswitch (kind) {{
{words}
\tdefault: return "unknown";
\t}}
}}
"""


def marked(path, made):
    """The text of a file, and the text with what is made in the place that it marks."""
    old = text(path)
    return old, MADE.sub(lambda it: it[1] + made + it[2], old)


def wrong_constants():
    """Where the header differs: constants of enum upc_call, and kinds."""
    header, crate = text(HEADER), text(f"{ROOT}/crates/upc_c/src/fault.rt")
    declared = dict(re.findall(r"^\s+(UPC_\w+) = (\d+)", header, re.M))
    for value, constant, _, _ in faults():
        if declared.get(constant) != str(value):
            yield f"include/upc.h has {constant} = {declared.get(constant)}, and not {value}"
    of = dict(zip(OF, ["call", *KINDS]))
    inside = dict(re.findall(r"const OF_(\w+): u32 = (\d+);", crate))
    for name, kind in of.items():
        if inside.get(name) != declared.get(f"UPC_{kind.upper()}") or name not in inside:
            wanted = declared.get(f"UPC_{kind.upper()}")
            yield f"kind {kind} is {inside.get(name)} in the crate, and {wanted} in include/upc.h"


def main(words):
    """Writes, compares or prints. Returns the exit status."""
    if words == ["--c"]:
        print(in_c(), end="")
        return 0
    status = 0
    for path, made in ((HEADER, in_header()), (PAGE, in_page())):
        old, new = marked(path, made)
        if words == ["--check"] and (old != new or made not in old):
            print(f"tools/faults.py would change {path}")
            status = 1
        elif words != ["--check"]:
            with open(path, "w", encoding="utf-8") as file:
                file.write(new)
    for line in wrong_constants():
        print(line)
        status = 1
    return status


if __name__ == "__main__":
    sys.exit(main(sys.argv[1:]))
