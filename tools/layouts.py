#!/usr/bin/env python3
"""Compares the structs of include/upc.h with those of crates/upc_c.

    tools/layouts.py   prints a C file that compiles only if the structs have the same sizes and offsets

Sizes and offsets are computed from the crate's sources by the rules of `#[repr(C)]` for a 64-bit machine. A struct or a
member that only one side has is an error of this script, which then prints what is missing and returns 1.
"""
import os
import re
import sys

ROOT = os.path.dirname(os.path.dirname(os.path.realpath(__file__)))
HEADER = f"{ROOT}/include/upc.h"
SOURCES = f"{ROOT}/crates/upc_c/src"
# The sizes of Rust's types that may cross to C, which are also their alignments.
SIZES = {"u8": 1, "u16": 2, "u32": 4, "u64": 8, "usize": 8, "*mut u8": 8}
# Types without a value when the program runs.
NOTHING = {"Global"}
STRUCT = re.compile(r"#\[repr\(C\)\]\n(?:#\[[^\n]*\]\n)*pub struct (\w+) \{\n(.*?)\n\}", re.S)
FIELD = re.compile(r"^    (?:pub(?:\([^)]*\))? )?(\w+): (.*),$", re.M)
DECLARED = re.compile(r"^typedef struct (\w+) \{\n(.*?)^\} \1;", re.S | re.M)
MEMBER = re.compile(r"^\t\w+ \*?(\w+);", re.M)


def texts(folder):
    """The text of each source file below a folder."""
    for path, _, names in sorted(os.walk(folder)):
        for name in sorted(names):
            if name.endswith(".rt"):
                with open(os.path.join(path, name), encoding="utf-8") as file:
                    yield file.read()


def structs():
    """The fields of each `#[repr(C)]` struct of the crate, as (name, type) in order. Ghost fields take no room."""
    return {name: FIELD.findall(body) for text in texts(SOURCES) for name, body in STRUCT.findall(text)}


def layout(known, kind):
    """The size and the alignment of a type, and its fields as (name, offset, size)."""
    if kind in NOTHING:
        return 0, 1, []
    if kind in SIZES:
        return SIZES[kind], SIZES[kind], []
    end, most, fields = 0, 1, []
    for name, its_kind in known[kind]:
        size, alignment, inner = layout(known, its_kind)
        at = -(-end // alignment) * alignment
        # C has the members of a struct that it doesn't know, and none that takes no room.
        if its_kind in known and not its_kind.startswith("Upc"):
            fields += [(its, at + offset, its_size) for its, offset, its_size in inner]
        elif size > 0:
            fields.append((name, at, size))
        end, most = at + size, max(most, alignment)
    return -(-end // most) * most, most, fields


def c_name(name):
    """The name in C of a struct: upc_fault for UpcFault."""
    return re.sub(r"(?<!^)(?=[A-Z])", "_", name).lower()


def differences(declared, wanted):
    """What only one side has, or what it has in another order."""
    for name in sorted(set(declared) ^ set(wanted)):
        yield f"only {'the header' if name in declared else 'the crate'} has {name}"
    for name in sorted(set(declared) & set(wanted)):
        here = [it for it, _, _ in wanted[name][2]]
        if declared[name] != here:
            yield f"{name} has the members {declared[name]}, in the crate {here}"


def main():
    """Prints the C file, or the differences of names. Returns the exit status."""
    with open(HEADER, encoding="utf-8") as file:
        declared = {name: MEMBER.findall(body) for name, body in DECLARED.findall(file.read())}
    known = structs()
    wanted = {c_name(name): layout(known, name) for name in known if name.startswith("Upc")}
    wrong = list(differences(declared, wanted))
    if wrong or not declared:
        print("\n".join(wrong or ["the header has no struct"]), file=sys.stderr)
        return 1
    print("#include <stddef.h>\n#include \"upc.h\"\n")
    for name, (size, _, fields) in wanted.items():
        print(f'_Static_assert(sizeof({name}) == {size}, "the size of {name}");')
        for member, at, its_size in fields:
            print(f'_Static_assert(offsetof({name}, {member}) == {at}, "{name}.{member}");')
            print(f'_Static_assert(sizeof((({name} *)0)->{member}) == {its_size}, "the size of {name}.{member}");')
    return 0


if __name__ == "__main__":
    sys.exit(main())
