"""The commands of a script and their words, on cards of each side: what `upc-lab explain` says of wrong ones."""
from .case import check_variants, explained

# What is wrong (a variant of `ScriptForm` or `ScriptSlot` of cmd_explain_script), a line, and the whole answer. Whole scripts.
OPENING = (
    (
        "Size",
        b"card 1 1 x 1",
        b"fault script 2 NoCard\n"
        b"line 1 column 10: `x` is no number; the sizes of a card are decimal\n",
    ),
    (
        "Side",
        b"card 1 1 1 1 unni",
        b"fault script 2 NoCard\n"
        b"line 1 column 14: `unni` is no side; the sides are `uni` and `nni`\n",
    ),
    (
        "Paths",
        b"card 1 1 1 1 uni path",
        b"fault script 2 NoCard\n"
        b"line 1 column 18: `path` is no word of this line; after the side comes `paths` or nothing\n",
    ),
    (
        "Opening",
        b"card 1 1",
        b"fault script 2 NoCard\n"
        b"line 1: `card` takes the numbers of programs, lines and ports, the cells of a journal, perhaps `uni` or `nni`, and then perhaps `paths`\n",
    ),
    (
        "Opening",
        b"card 1 1 1 1 nni paths 1",
        b"fault script 2 NoCard\n"
        b"line 1 column 24: `card` takes the numbers of programs, lines and ports, the cells of a journal, perhaps `uni` or `nni`, and then perhaps `paths`\n",
    ),
)

# Lines on each card.
ON_EACH_CARD = (
    (
        "Program",
        b"retire gold",
        b"fault script 1 BadLine\n"
        b"line 2 column 8: `gold` names no program; a name is `p` and a number, as `p1`\n",
    ),
    (
        "Program",
        b"retire 1",
        b"fault script 1 BadLine\n"
        b"line 2 column 8: `1` names no program; perhaps `p1` is meant\n",
    ),
    (
        "Moment",
        b"cell x 00",
        b"fault script 1 BadLine\n"
        b"line 2 column 6: `x` is no moment; a moment is a decimal number of ticks\n",
    ),
    (
        "Loading",
        b"load",
        b"fault script 1 BadLine\n"
        b"line 2: `load` takes one word, the octets of a program\n",
    ),
    (
        "Retiring",
        b"retire",
        b"fault script 1 BadLine\n"
        b"line 2: `retire` takes the name of a program, as `p1`\n",
    ),
    (
        "Arrival",
        b"cell 1",
        b"fault script 1 BadLine\n"
        b"line 2: `cell` takes a moment, and one word with the octets of a cell\n",
    ),
    (
        "Arrival",
        b"cell 1 00 00",
        b"fault script 1 BadLine\n"
        b"line 2 column 11: `cell` takes a moment, and one word with the octets of a cell\n",
    ),
    (
        "Loading",
        b"load 00 # gold",
        b"fault script 1 BadLine\n"
        b"line 2 column 9: a remark has a line of its own, which begins with `#`\n",
    ),
)

# Lines on a card of channels.
OF_CHANNELS = (
    (
        "Channel",
        b"release 1  65536",
        b"fault script 1 BadLine\n"
        b"line 2 column 12: `65536` is no VCI; a VCI is at most 65535\n",
    ),
    (
        "Channel",
        b"cut 1 *",
        b"fault script 1 BadLine\n"
        b"line 2 column 7: `*` is no VCI; `*` is the channel only on a card of paths\n",
    ),
    (
        "Contract",
        b"setup 1 2 p1 gold",
        b"fault script 1 BadLine\n"
        b"line 2 column 14: `gold` is no contract; a contract is `cbr1:T/L`, `vbr1:T/L:T/L`, `vbr2:T/L:T/L` or `vbr3:T/L:T/L`, with increment T and limit L of each bucket\n",
    ),
    (
        "Contract",
        b"setup 1 2 p1 cbr1:1/1 cbr1:1",
        b"fault script 1 BadLine\n"
        b"line 2 column 23: `cbr1:1` is no contract; after `cbr1:` comes one bucket `T/L`, its increment and its limit in ticks\n",
    ),
    (
        "Contract",
        b"setup 1 2 p1 vbr1:1/1",
        b"fault script 1 BadLine\n"
        b"line 2 column 14: `vbr1:1/1` is no contract; after its kind come two buckets `T/L:T/L`, the increment and the limit of each in ticks, that of the peak rate first\n",
    ),
    (
        "Contract",
        b"setup 1 2 p1 vbr2:1/1",
        b"fault script 1 BadLine\n"
        b"line 2 column 14: `vbr2:1/1` is no contract; after its kind come two buckets `T/L:T/L`, the increment and the limit of each in ticks, that of the peak rate first\n",
    ),
    (
        "Contract",
        b"setup 1 2 p1 vbr3:1/1",
        b"fault script 1 BadLine\n"
        b"line 2 column 14: `vbr3:1/1` is no contract; after its kind come two buckets `T/L:T/L`, the increment and the limit of each in ticks, that of the peak rate first\n",
    ),
    (
        "Setting",
        b"setup 1 2 p1",
        b"fault script 1 BadLine\n"
        b"line 2: `setup` takes a VPI, a VCI, the name of a program, and one to four contracts\n",
    ),
    (
        "Reloading",
        b"reload 1 2",
        b"fault script 1 BadLine\n"
        b"line 2: `reload` takes a VPI, a VCI and the name of a program\n",
    ),
    (
        "OneConnection",
        b"release 1",
        b"fault script 1 BadLine\n"
        b"line 2: `release` takes a VPI and a VCI\n",
    ),
    (
        "OneConnection",
        b"cut 1 100 p1",
        b"fault script 1 BadLine\n"
        b"line 2 column 11: `cut` takes a VPI and a VCI\n",
    ),
)

# Lines on a card of paths.
OF_PATHS = (
    (
        "Channel",
        b"release 1 100",
        b"fault script 1 BadLine\n"
        b"line 2 column 11: `100` is no channel; the channel on a card of paths is `*`\n",
    ),
    (
        "Contract",
        b"setup 1 * p1 gold",
        b"fault script 1 BadLine\n"
        b"line 2 column 14: `gold` is no contract; a contract is `cbr1:T/L`, `vbr1:T/L:T/L`, `vbr2:T/L:T/L` or `vbr3:T/L:T/L`, with increment T and limit L of each bucket\n",
    ),
    (
        "Contract",
        b"setup 1 * p1 cbr1:1/1 cbr1:1",
        b"fault script 1 BadLine\n"
        b"line 2 column 23: `cbr1:1` is no contract; after `cbr1:` comes one bucket `T/L`, its increment and its limit in ticks\n",
    ),
    (
        "Contract",
        b"setup 1 * p1 vbr1:1/1",
        b"fault script 1 BadLine\n"
        b"line 2 column 14: `vbr1:1/1` is no contract; after its kind come two buckets `T/L:T/L`, the increment and the limit of each in ticks, that of the peak rate first\n",
    ),
    (
        "Contract",
        b"setup 1 * p1 vbr2:1/1",
        b"fault script 1 BadLine\n"
        b"line 2 column 14: `vbr2:1/1` is no contract; after its kind come two buckets `T/L:T/L`, the increment and the limit of each in ticks, that of the peak rate first\n",
    ),
    (
        "Contract",
        b"setup 1 * p1 vbr3:1/1",
        b"fault script 1 BadLine\n"
        b"line 2 column 14: `vbr3:1/1` is no contract; after its kind come two buckets `T/L:T/L`, the increment and the limit of each in ticks, that of the peak rate first\n",
    ),
    (
        "Setting",
        b"setup 1 * p1",
        b"fault script 1 BadLine\n"
        b"line 2: `setup` takes a VPI, `*`, the name of a program, and one to four contracts\n",
    ),
    (
        "Reloading",
        b"reload 1 *",
        b"fault script 1 BadLine\n"
        b"line 2: `reload` takes a VPI, `*` and the name of a program\n",
    ),
    (
        "OneConnection",
        b"release 1",
        b"fault script 1 BadLine\n"
        b"line 2: `release` takes a VPI and `*`\n",
    ),
    (
        "OneConnection",
        b"cut 1 * p1",
        b"fault script 1 BadLine\n"
        b"line 2 column 9: `cut` takes a VPI and `*`\n",
    ),
)

# Lines on a card at the user side.
AT_THE_USER = (
    (
        "Path",
        b"cut 256 1",
        b"fault script 1 BadLine\n"
        b"line 2 column 5: `256` is no VPI; at the user side a VPI is at most 255, and between nodes (`nni` in the line of the card) at most 4095\n",
    ),
)

# Lines on a card between nodes.
BETWEEN_NODES = (
    (
        "Path",
        b"cut 4096 1",
        b"fault script 1 BadLine\n"
        b"line 2 column 5: `4096` is no VPI; between nodes a VPI is at most 4095\n",
    ),
)

# Cards of channels and of paths, at the user side and between nodes.
UNI, NNI = b"card 1 1 1 1 uni\n", b"card 1 1 1 1 nni\n"
UNI_PATHS, NNI_PATHS = b"card 1 1 1 1 uni paths\n", b"card 1 1 1 1 nni paths\n"

# The rows, and what comes before their lines: nothing, or each of these cards.
AFTER = (
    (OPENING, (b"",)),
    (ON_EACH_CARD, (UNI, NNI, UNI_PATHS, NNI_PATHS)),
    (OF_CHANNELS, (UNI, NNI)),
    (OF_PATHS, (UNI_PATHS, NNI_PATHS)),
    (AT_THE_USER, (UNI, UNI_PATHS)),
    (BETWEEN_NODES, (NNI, NNI_PATHS)),
)


def cases():
    """Yields the explanation of each line after each of its cards."""
    wrong = {label for rows, _ in AFTER for label, _, _ in rows}
    # A command takes any word there; if it has other digits, the line has another fault.
    check_variants("crates/cmd_explain_script/src/forms.rt", "ScriptForm ScriptSlot", wrong, {"Digits"})
    for rows, cards in AFTER:
        for _, line, answer in rows:
            for card in cards:
                yield explained(card + line, answer)
