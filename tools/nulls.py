#!/usr/bin/env python3
"""Makes the layer in front of the proved calls, which refuses null pointers, from include/upc.h.

    tools/nulls.py            prints the layer as C: each call of the header that takes a pointer
    tools/nulls.py --names    prints the lines by which objcopy gives the crate's exports their inner names
    tools/nulls.py --exports  prints the version script of the shared library: it shows the calls of the header alone
    tools/nulls.py --test     prints a C program that passes null at each pointer of each call

The crate exports each call under its own name. In the library these exports are called upc_proved_.., and the layer has their
place: it tests the pointers for null and makes the proved call. A pointer with a length is null only if the length is 0; the
proved call then gets the address of an object that it neither reads nor writes. A fault may be null. A handle that the header
takes as const is lent to the proved call as a copy: what it owns depends on its value.
"""
import os
import re
import sys

ROOT = os.path.dirname(os.path.dirname(os.path.realpath(__file__)))
HEADER = f"{ROOT}/include/upc.h"
CALL = re.compile(r"^(uint32_t|void) (upc_\w+)\(([^;]*?)\)[^;()]*;", re.M | re.S)
SHOWN = re.compile(r"^(?:uint32_t |void |const char \*)(upc_\w+)\([^;]*;", re.M | re.S)
PARAMETER = re.compile(r"(const )?(\w+) (\*?)(\w+)$")
HANDLES = {"upc_program", "upc_card"}
# The number of a null pointer among the faults of the call, from docs/FORMATS.md.
NUMBER = re.compile(r"^\| (\d+) \| `UPC_NULL_POINTER` \|", re.M)


class Parameter:
    """A parameter of a call."""

    def __init__(self, text):
        const, self.type, star, self.name = PARAMETER.match(" ".join(text.split())).groups()
        self.is_const, self.is_pointer, self.length = bool(const), bool(star), None
        self.declaration = f"{'const ' if const else ''}{self.type} {star}{self.name}"

    def is_lent(self):
        """Is it a handle that the header takes as const?"""
        return self.is_pointer and self.is_const and self.type in HANDLES


class Call:
    """A call of the header that takes a pointer."""

    def __init__(self, result, name, words):
        self.result, self.name, self.inner = result, name, name.replace("upc_", "upc_proved_", 1)
        self.parameters = [Parameter(word) for word in words.split(",")]
        for pointer, length in zip(self.parameters, self.parameters[1:]):
            if pointer.is_pointer and length.type == "size_t" and not length.is_pointer:
                pointer.length = length.name

    def pointers(self):
        """Its pointers but for the fault."""
        return [it for it in self.parameters if it.is_pointer and it.name != "fault"]

    def declaration(self, name, is_inner=False):
        """Its declaration under this name. The proved call takes no handle as const."""
        words = [f"{it.type} *{it.name}" if is_inner and it.is_lent() else it.declaration for it in self.parameters]
        return f"{self.result} {name}({', '.join(words)})"

    def given(self, **instead):
        """Its arguments by their names, but for some."""
        return ", ".join(instead.get(it.name, it.name) for it in self.parameters)


def text(path):
    """The text of a file."""
    with open(path, encoding="utf-8") as file:
        return file.read()


def calls():
    """The calls that take a pointer, in the header's order."""
    return [Call(*it) for it in CALL.findall(text(HEADER)) if "*" in it[2]]


def layer_of(call):
    """The layer's function in front of a proved call."""
    lines = [f"{call.declaration(call.inner, is_inner=True)};", "", call.declaration(call.name), "{"]
    if call.result == "void":
        lines += [f"\tif ({call.pointers()[0].name} != NULL)", f"\t\t{call.inner}({call.given()});", "}"]
        return "\n".join(lines)
    plain = [it.name for it in call.pointers() if it.length is None]
    lines += ["\tif (SELDOM(fault == NULL)) {", "\t\tupc_fault unwanted;", "", f"\t\treturn {call.name}({call.given(fault='&unwanted')});", "\t}"]
    if plain:
        lines += [f"\tif ({' || '.join(f'SELDOM({it} == NULL)' for it in plain)})", "\t\treturn null_pointer(fault);"]
    for it in (it for it in call.pointers() if it.length):
        kind = f"{'const ' if it.is_const else ''}{it.type} *"
        lines += [f"\tif (SELDOM({it.name} == NULL)) {{", f"\t\tif ({it.length} != 0)", "\t\t\treturn null_pointer(fault);"]
        lines += [f"\t\t{it.name} = ({kind})(void *)&nothing;", "\t}"]
    lent = [it for it in call.parameters if it.is_lent()]
    for it in lent:
        lines += ["\t{", f"\t\t{it.type} lent = *{it.name};", "", f"\t\treturn {call.inner}({call.given(**{it.name: '&lent'})});", "\t}"]
    if not lent:
        lines.append(f"\treturn {call.inner}({call.given()});")
    return "\n".join([*lines, "}"])


def layer():
    """The layer as C."""
    number = NUMBER.search(text(f"{ROOT}/docs/FORMATS.md"))[1]
    return "\n\n".join([f"""#include "upc.h"

#if defined(__GNUC__)
#define SELDOM(it) __builtin_expect(!!(it), 0)
#else
#define SELDOM(it) (it)
#endif

/* What a buffer of length 0 is for the proved calls. Nobody reads or writes it. */
static uint64_t nothing;

static uint32_t null_pointer(upc_fault *fault)
{{
	const upc_fault found = {{UPC_CALL, {number}, 0, 0, 0, 0}};

	*fault = found;
	return UPC_NULL_POINTER;
}}""", *map(layer_of, calls())]) + "\n"


def exports():
    """The version script."""
    version = re.search(r"^#define UPC_VERSION (\d+)$", text(HEADER), re.M)[1]
    shown = "".join(f" {it};" for it in SHOWN.findall(text(HEADER)))
    return f"UPC_{version} {{ global:{shown} local: *; }};\n"


def trial_of(call):
    """The function of the test that tries a call."""
    lines = [f"static void try_{call.name}(void)", "{"]
    if call.result == "void":
        return "\n".join([*lines, f"\t{call.name}(NULL);", "}"])
    filled = {it.name: f"({it.type} *)(void *)room[{place}]" for place, it in enumerate(call.pointers())}
    lengths = {it.length for it in call.pointers()}
    ones = {it.name: "1" if it.name in lengths else "0" for it in call.parameters if not it.is_pointer}

    def made(number, **instead):
        return f"{call.name}({call.given(**{**filled, **ones, **({} if number else dict.fromkeys(ones, '0')), **instead})})"

    def compared(what, number, **instead):
        for fault in ("&fault", "NULL"):
            lines.extend(["\tbegin();", f"\tended(\"{call.name}: {what}, fault {fault}\", {made(number, **instead, fault=fault)}, {fault});"])

    for it in call.pointers():
        lines.append("\twant_null_pointer();")
        compared(f"{it.name} null", 1, **{it.name: "NULL"})
        if it.length:
            lines.extend(["\tbegin();", f"\twant({made(0, fault='&fault')});"])
            compared(f"{it.name} null with length 0", 0, **{it.name: "NULL"})
    lines.extend(["\tbegin();", f"\twant({made(0, fault='&fault')});"])
    compared("nothing null", 0)
    return "\n".join([*lines, "}"])


def trial():
    """The test as C."""
    every = "\n".join(f"\ttry_{call.name}();" for call in calls())
    return "\n\n".join(["""#include <stdio.h>
#include <string.h>
#include "upc.h"

/* What the pointers point to: zeros, of more octets than any of the types has. What is wanted of a call: its result, its fault,
 * and what it leaves there. */
static uint64_t room[8][16], wanted_room[8][16];
static upc_fault fault, wanted_fault;
static uint32_t wanted;
static unsigned tried, wrong;

static void begin(void)
{
	memset(room, 0, sizeof room);
	memset(&fault, 0xa5, sizeof fault);
}

/* A null pointer is refused, and nothing else is written. */
static void want_null_pointer(void)
{
	const upc_fault it = {UPC_CALL, UPC_NULL_POINTER % 256, 0, 0, 0, 0};

	wanted = UPC_NULL_POINTER;
	wanted_fault = it;
	memset(wanted_room, 0, sizeof wanted_room);
}

/* The next calls are to do the same as this one, in which no pointer was null. */
static void want(uint32_t result)
{
	wanted = result;
	wanted_fault = fault;
	memcpy(wanted_room, room, sizeof room);
}

static void ended(const char *what, uint32_t result, const upc_fault *reported)
{
	tried++;
	if (result == wanted && memcmp(room, wanted_room, sizeof room) == 0
	    && (reported == NULL || memcmp(reported, &wanted_fault, sizeof wanted_fault) == 0))
		return;
	wrong++;
	printf("%s: %u, and not %u\\n", what, (unsigned)result, (unsigned)wanted);
}""", *map(trial_of, calls()), f"""int main(void)
{{
{every}
	printf("%u trials, %u wrong\\n", tried, wrong);
	return wrong != 0;
}}"""]) + "\n"


def main(words):
    """Prints what the word asks for. Returns the exit status."""
    if words == ["--names"]:
        print("\n".join(f"{it.name} {it.inner}" for it in calls()))
    elif words == ["--exports"]:
        print(exports(), end="")
    elif words == ["--test"]:
        print(trial(), end="")
    elif not words:
        print(layer(), end="")
    else:
        print(__doc__.strip(), file=sys.stderr)
        return 2
    return 0


if __name__ == "__main__":
    sys.exit(main(sys.argv[1:]))
