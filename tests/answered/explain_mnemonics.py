"""The sentences of `upc-lab explain` about mnemonics: what each takes, and which is meant by another word."""
from .case import check_variants, explained

# What a mnemonic takes (a variant of `Form` of cmd_explain), a line with other operands, and the whole answer to it.
TAKEN = (
    (
        "Word",
        b"ld [x+y]",
        b"fault asm 1 BadLine 1\n"
        b"line 1 column 7: `ld` takes `[number]`, `[x+number]`, `#number`, `M[number]` or `#len`\n",
    ),
    (
        "Packet",
        b"ldh [x+1",
        b"fault asm 1 BadLine 1\n"
        b"line 1: `ldh` takes `[number]` or `[x+number]`\n",
    ),
    (
        "Packet",
        b"ldb [1+x]",
        b"fault asm 1 BadLine 1\n"
        b"line 1 column 7: `ldb` takes `[number]` or `[x+number]`\n",
    ),
    (
        "Index",
        b"ldx M[x]",
        b"fault asm 1 BadLine 1\n"
        b"line 1 column 7: `ldx` takes `#number`, `M[number]`, `#len` or `4*([number]&0xf)`\n",
    ),
    (
        "Header",
        b"ldxb 4*([0]&0xe)",
        b"fault asm 1 BadLine 1\n"
        b"line 1 column 13: `ldxb` takes `4*([number]&0xf)`\n",
    ),
    (
        "Store",
        b"st M[1",
        b"fault asm 1 BadLine 1\n"
        b"line 1: `st` takes `M[number]`\n",
    ),
    (
        "Store",
        b"stx M(1)",
        b"fault asm 1 BadLine 1\n"
        b"line 1 column 6: `stx` takes `M[number]`\n",
    ),
    (
        "Operation",
        b"add #x",
        b"fault asm 1 BadLine 1\n"
        b"line 1 column 6: `add` takes `#number` or `x`\n",
    ),
    (
        "Operation",
        b"sub #-x",
        b"fault asm 1 BadLine 1\n"
        b"line 1 column 7: `sub` takes `#number` or `x`\n",
    ),
    (
        "Operation",
        b"mul x x",
        b"fault asm 1 BadLine 1\n"
        b"line 1 column 7: `mul` takes `#number` or `x`\n",
    ),
    (
        "Operation",
        b"div #1 1",
        b"fault asm 1 BadLine 1\n"
        b"line 1 column 8: `div` takes `#number` or `x`\n",
    ),
    (
        "Operation",
        b"mod 7",
        b"fault asm 1 BadLine 1\n"
        b"line 1 column 5: `mod` takes `#number` or `x`\n",
    ),
    (
        "Operation",
        b"and #",
        b"fault asm 1 BadLine 1\n"
        b"line 1: `and` takes `#number` or `x`\n",
    ),
    (
        "Operation",
        b"or y",
        b"fault asm 1 BadLine 1\n"
        b"line 1 column 4: `or` takes `#number` or `x`\n",
    ),
    (
        "Operation",
        b"xor x, 1",
        b"fault asm 1 BadLine 1\n"
        b"line 1 column 6: `xor` takes `#number` or `x`\n",
    ),
    (
        "Operation",
        b"lsh #-",
        b"fault asm 1 BadLine 1\n"
        b"line 1: `lsh` takes `#number` or `x`\n",
    ),
    (
        "Operation",
        b"rsh",
        b"fault asm 1 BadLine 1\n"
        b"line 1: `rsh` takes `#number` or `x`\n",
    ),
    (
        "Alone",
        b"neg a",
        b"fault asm 1 BadLine 1\n"
        b"line 1 column 5: `neg` takes no operand\n",
    ),
    (
        "Alone",
        b"tax x",
        b"fault asm 1 BadLine 1\n"
        b"line 1 column 5: `tax` takes no operand\n",
    ),
    (
        "Alone",
        b"txa #1",
        b"fault asm 1 BadLine 1\n"
        b"line 1 column 5: `txa` takes no operand\n",
    ),
    (
        "Return",
        b"ret #a",
        b"fault asm 1 BadLine 1\n"
        b"line 1 column 6: `ret` takes `#number` or `a`\n",
    ),
    (
        "Jump",
        b"ja #1",
        b"fault asm 1 BadLine 1\n"
        b"line 1 column 4: `ja` takes a label\n",
    ),
    (
        "Jump",
        b"jmp a, b",
        b"fault asm 1 BadLine 1\n"
        b"line 1 column 6: `jmp` takes a label\n",
    ),
    (
        "Branch",
        b"jeq #1, a, 2",
        b"fault asm 1 BadLine 1\n"
        b"line 1 column 12: `jeq` takes `#number` or `x`, and then `, label` or `, label, label`\n",
    ),
    (
        "Branch",
        b"jgt x a",
        b"fault asm 1 BadLine 1\n"
        b"line 1 column 7: `jgt` takes `#number` or `x`, and then `, label` or `, label, label`\n",
    ),
    (
        "Branch",
        b"jge #-1, a b",
        b"fault asm 1 BadLine 1\n"
        b"line 1 column 12: `jge` takes `#number` or `x`, and then `, label` or `, label, label`\n",
    ),
    (
        "Branch",
        b"jset #1",
        b"fault asm 1 BadLine 1\n"
        b"line 1: `jset` takes `#number` or `x`, and then `, label` or `, label, label`\n",
    ),
    (
        "Inverse",
        b"jne #1, a, b",
        b"fault asm 1 BadLine 1\n"
        b"line 1 column 10: `jne` takes `#number` or `x`, and then `, label`\n",
    ),
    (
        "Inverse",
        b"jneq x, 1",
        b"fault asm 1 BadLine 1\n"
        b"line 1 column 9: `jneq` takes `#number` or `x`, and then `, label`\n",
    ),
    (
        "Inverse",
        b"jlt x, a, b",
        b"fault asm 1 BadLine 1\n"
        b"line 1 column 9: `jlt` takes `#number` or `x`, and then `, label`\n",
    ),
    (
        "Inverse",
        b"jle #-1 a",
        b"fault asm 1 BadLine 1\n"
        b"line 1 column 9: `jle` takes `#number` or `x`, and then `, label`\n",
    ),
)

# Words that several mnemonics are near, and the answer: the first of these in `known_mnemonics` is meant.
MEANT = (
    (
        b"ldz",
        b"fault asm 1 BadLine 1\n"
        b"line 1 column 1: `ldz` is no mnemonic; perhaps `ld` is meant\n",
    ),
    (
        b"ldbx",
        b"fault asm 1 BadLine 1\n"
        b"line 1 column 1: `ldbx` is no mnemonic; perhaps `ldb` is meant\n",
    ),
    (
        b"sty",
        b"fault asm 1 BadLine 1\n"
        b"line 1 column 1: `sty` is no mnemonic; perhaps `st` is meant\n",
    ),
    (
        b"axd",
        b"fault asm 1 BadLine 1\n"
        b"line 1 column 1: `axd` is no mnemonic; perhaps `add` is meant\n",
    ),
    (
        b"oor",
        b"fault asm 1 BadLine 1\n"
        b"line 1 column 1: `oor` is no mnemonic; perhaps `or` is meant\n",
    ),
    (
        b"xsh",
        b"fault asm 1 BadLine 1\n"
        b"line 1 column 1: `xsh` is no mnemonic; perhaps `lsh` is meant\n",
    ),
    (
        b"taxa",
        b"fault asm 1 BadLine 1\n"
        b"line 1 column 1: `taxa` is no mnemonic; perhaps `tax` is meant\n",
    ),
    (
        b"jgx",
        b"fault asm 1 BadLine 1\n"
        b"line 1 column 1: `jgx` is no mnemonic; perhaps `jgt` is meant\n",
    ),
    (
        b"jxe",
        b"fault asm 1 BadLine 1\n"
        b"line 1 column 1: `jxe` is no mnemonic; perhaps `jge` is meant\n",
    ),
    (
        b"jnex",
        b"fault asm 1 BadLine 1\n"
        b"line 1 column 1: `jnex` is no mnemonic; perhaps `jne` is meant\n",
    ),
    (
        b"jlx",
        b"fault asm 1 BadLine 1\n"
        b"line 1 column 1: `jlx` is no mnemonic; perhaps `jlt` is meant\n",
    ),
)


def cases():
    """Yields the explanation of each line."""
    check_variants("crates/cmd_explain/src/forms.rt", "Form", {form for form, _, _ in TAKEN})
    for _, line, answer in TAKEN:
        yield explained(b"source\n" + line, answer)
    for line, answer in MEANT:
        yield explained(b"source\n" + line, answer)
