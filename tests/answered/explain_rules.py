"""Each sentence of `upc-lab explain` about a text of rules."""
from .case import explained

# Texts of rules, and the whole answer to each.
TEXTS = (
    (
        b"(vpi 1 or\n"
        b" vpi 2\n"
        b"clp 1 -> 3\n",
        b"fault rules 1 BadLine 3 1\n"
        b"line 3 column 1: `clp` doesn't fit here; `..`, `,`, `and`, `or`, `->` or `{` comes next; a `(` is open here\n",
    ),
    (
        b"vpi 1 and (rm or # (\n"
        b"\n"
        b" oam\n",
        b"fault rules 1 BadLine 3 5\n"
        b"line 3: the line ends too early; `and`, `or`, `->` or `{` comes next; a `(` is open here\n",
    ),
    (
        b"vpi 1 { oam}\n",
        b"fault rules 1 BadLine 1 12\n"
        b"line 1: the line ends too early; `and`, `or`, `->` or `{` comes next\n",
    ),
    (
        b"define a = 1; define a = 2\n",
        b"fault rules 11 NameTaken 1 22\n"
        b"line 1 column 22: `a` is given by line 1; a name is given once\n",
    ),
    (
        b"vpi 1 { oam -> 3; oamf4 -> 4 }\n",
        b"no fault in 2 rules\n"
        b"hint line 1 column 19: this rule decides no cell; line 1:9 takes its cells\n",
    ),
    (
        b"vpi 1 => 2\n",
        b"fault rules 1 BadLine 1 7\n"
        b"line 1 column 7: `=` doesn't fit here; `..`, `,`, `and`, `or`, `->` or `{` comes next\n",
    ),
    (
        b"vpi 1\n",
        b"fault rules 1 BadLine 1 6\n"
        b"line 1: the line ends too early; `..`, `,`, `and`, `or`, `->` or `{` comes next\n",
    ),
    (
        b"-> 2\n",
        b"fault rules 1 BadLine 1 1\n"
        b"line 1 column 1: `->` doesn't fit here; a line begins with a test, `}`, `otherwise`, `side`, `contract` or `define`\n",
    ),
    (
        b"clp 1 and -> 2\n",
        b"fault rules 1 BadLine 1 11\n"
        b"line 1 column 11: `->` doesn't fit here; a test comes here, as `vpi 1`, `1/32`, `oam` or a name\n",
    ),
    (
        b"oam vpi 1 -> 2\n",
        b"fault rules 1 BadLine 1 5\n"
        b"line 1 column 5: `vpi` doesn't fit here; `and`, `or`, `->` or `{` comes next\n",
    ),
    (
        b"octet & 1 -> 2\n",
        b"fault rules 1 BadLine 1 7\n"
        b"line 1 column 7: `&` doesn't fit here; the offset of the octets comes next, a number\n",
    ),
    (
        b"vpi and clp 1 -> 2\n",
        b"fault rules 1 BadLine 1 5\n"
        b"line 1 column 5: `and` doesn't fit here; a number, a list, a sign or `&` comes after a field, as in `vci 5, 32..127`\n",
    ),
    (
        b"octet 4 & = 1 -> 2\n",
        b"fault rules 1 BadLine 1 11\n"
        b"line 1 column 11: `=` doesn't fit here; a mask comes after `&`, a number\n",
    ),
    (
        b"octet 4 & 1 -> 2\n",
        b"fault rules 1 BadLine 1 13\n"
        b"line 1 column 13: `->` doesn't fit here; a number, a list or a sign comes after a mask, as in `& 0xf0 = 0x30`\n",
    ),
    (
        b"vci < any -> 2\n",
        b"fault rules 1 BadLine 1 7\n"
        b"line 1 column 7: `any` doesn't fit here; a number comes after this sign\n",
    ),
    (
        b"vci 1.. -> 2\n",
        b"fault rules 1 BadLine 1 9\n"
        b"line 1 column 9: `->` doesn't fit here; the last number of a range comes after `..`\n",
    ),
    (
        b"vci 1..2 3 -> 2\n",
        b"fault rules 1 BadLine 1 10\n"
        b"line 1 column 10: `3` doesn't fit here; `,`, `and`, `or`, `->` or `{` comes next\n",
    ),
    (
        b"vci 1, -> 2\n",
        b"fault rules 1 BadLine 1 8\n"
        b"line 1 column 8: `->` doesn't fit here; a number of a list comes next\n",
    ),
    (
        b"1 -> 2\n",
        b"fault rules 1 BadLine 1 3\n"
        b"line 1 column 3: `->` doesn't fit here; a number that begins a test is a path, and `/` comes after it, as in `1/32`\n",
    ),
    (
        b"1/ -> 2\n",
        b"fault rules 1 BadLine 1 4\n"
        b"line 1 column 4: `->` doesn't fit here; the channels of the path come after `/`: a list, or `*` for all of them\n",
    ),
    (
        b"otherwise 2\n",
        b"fault rules 1 BadLine 1 11\n"
        b"line 1 column 11: `2` doesn't fit here; `->` comes after `otherwise`\n",
    ),
    (
        b"any ->\n",
        b"fault rules 1 BadLine 1 7\n"
        b"line 1: the line ends too early; a value comes next: a number, the name of a contract, or `refuse`\n",
    ),
    (
        b"side any\n",
        b"fault rules 1 BadLine 1 6\n"
        b"line 1 column 6: `any` doesn't fit here; `uni` or `nni` comes after `side`\n",
    ),
    (
        b"any -> 1 2\n",
        b"fault rules 1 BadLine 1 10\n"
        b"line 1 column 10: `2` doesn't fit here; nothing more comes in this line\n",
    ),
    (
        b"define 1 = 2\n",
        b"fault rules 1 BadLine 1 8\n"
        b"line 1 column 8: `1` doesn't fit here; a new name comes next, which begins with a letter or `_`\n",
    ),
    (
        b"define gold 2\n",
        b"fault rules 1 BadLine 1 13\n"
        b"line 1 column 13: `2` doesn't fit here; `=` comes after a new name\n",
    ),
    (
        b"define five = 5\n"
        b"vci < five 3 -> 1\n",
        b"fault rules 1 BadLine 2 12\n"
        b"line 2 column 12: `3` doesn't fit here; `and`, `or`, `->` or `{` comes next\n",
    ),
    (
        b"define five = 5\n"
        b"octet 4 & five -> 1\n",
        b"fault rules 1 BadLine 2 16\n"
        b"line 2 column 16: `->` doesn't fit here; a number, a list or a sign comes after a mask, as in `& 0xf0 = 0x30`\n",
    ),
    (
        b"define five = 5\n"
        b"octet five -> 1\n",
        b"fault rules 1 BadLine 2 12\n"
        b"line 2 column 12: `->` doesn't fit here; a number, a list, a sign or `&` comes after a field, as in `vci 5, 32..127`\n",
    ),
    (
        b"define five = 5\n"
        b"vci 1..five 6 -> 1\n",
        b"fault rules 1 BadLine 2 13\n"
        b"line 2 column 13: `6` doesn't fit here; `,`, `and`, `or`, `->` or `{` comes next\n",
    ),
    (
        b"define five = 5\n"
        b"vci < five\n",
        b"fault rules 1 BadLine 2 11\n"
        b"line 2: the line ends too early; `and`, `or`, `->` or `{` comes next\n",
    ),
    (
        b"define gold = -> 2\n",
        b"fault rules 1 BadLine 1 15\n"
        b"line 1 column 15: `->` doesn't fit here; a test or a list of numbers comes after `=`\n",
    ),
    (
        b"define gold = oam -> 2\n",
        b"fault rules 1 BadLine 1 19\n"
        b"line 1 column 19: `->` doesn't fit here; `and`, `or` or the end of the line comes next\n",
    ),
    (
        b"define gold = 1 -> 2\n",
        b"fault rules 1 BadLine 1 17\n"
        b"line 1 column 17: `->` doesn't fit here; `..`, `,` or the end of the line comes next, and in a test also `and` or `or`\n",
    ),
    (
        b"define gold = 1..2 -> 2\n",
        b"fault rules 1 BadLine 1 20\n"
        b"line 1 column 20: `->` doesn't fit here; `,` or the end of the line comes next, and in a test also `and` or `or`\n",
    ),
    (
        b"side nni\n"
        b"gfc 1 -> 2\n",
        b"fault rules 1 BadLine 2 1\n"
        b"line 2 column 1: `gfc` doesn't fit here; between nodes (`side nni`) the header has no gfc\n",
    ),
    (
        b"any {\n"
        b"otherwise -> 1\n"
        b"}\n",
        b"fault rules 1 BadLine 2 1\n"
        b"line 2 column 1: `otherwise` doesn't fit here; `otherwise` comes outside of blocks, and a `}` ends a block\n",
    ),
    (
        b"any -> 1\n"
        b"side nni\n",
        b"fault rules 1 BadLine 2 1\n"
        b"line 2 column 1: `side` doesn't fit here; `side` comes in the first line that has words\n",
    ),
    (
        b"any -> 1\n"
        b"define gold = 1\n",
        b"fault rules 1 BadLine 2 1\n"
        b"line 2 column 1: `define` doesn't fit here; names are given before the first rule or block\n",
    ),
    (
        b"vci 1-2 -> 1\n",
        b"fault rules 1 BadLine 1 6\n"
        b"line 1 column 6: `-` doesn't fit here; a range is written with `..`, as in `32..127`\n",
    ),
    (
        b"clp 1 & vpi 1 -> 1\n",
        b"fault rules 1 BadLine 1 7\n"
        b"line 1 column 7: `&` doesn't fit here; tests are joined by `and` or `&&`; a mask comes right after a field\n",
    ),
    (
        b"oam | rm -> 1\n",
        b"fault rules 1 BadLine 1 5\n"
        b"line 1 column 5: `|` doesn't fit here; tests are joined by `or` or `||`\n",
    ),
    (
        b"vci {1, 2} -> 1\n",
        b"fault rules 1 BadLine 1 5\n"
        b"line 1 column 5: `{` doesn't fit here; a list has no braces, as in `vci 1, 2`\n",
    ),
    (
        b"vci 12a -> 1\n",
        b"fault rules 2 BadNumber 1 5\n"
        b"line 1 column 5: `12a` is no number; a number has decimal digits, or hexadecimal digits after 0x, and is at most 4294967295\n",
    ),
    (
        b"gfc 16 -> 1\n",
        b"fault rules 3 TooLarge 1 5\n"
        b"line 1 column 5: `16` doesn't fit here; gfc is at most 15\n",
    ),
    (
        b"256/* -> 1\n",
        b"fault rules 3 TooLarge 1 1\n"
        b"line 1 column 1: `256` doesn't fit here; vpi is at most 255, and between nodes (`side nni`) at most 4095\n",
    ),
    (
        b"1/65536 -> 1\n",
        b"fault rules 3 TooLarge 1 3\n"
        b"line 1 column 3: `65536` doesn't fit here; vci is at most 65535\n",
    ),
    (
        b"pti 0..8 -> 1\n",
        b"fault rules 3 TooLarge 1 8\n"
        b"line 1 column 8: `8` doesn't fit here; the last number of a range is at least its first, and pti is at most 7\n",
    ),
    (
        b"clp < 2 -> 1\n",
        b"fault rules 3 TooLarge 1 7\n"
        b"line 1 column 7: `2` doesn't fit here; clp is at most 1\n",
    ),
    (
        b"octet 4 & 256 = 1 -> 1\n",
        b"fault rules 3 TooLarge 1 11\n"
        b"line 1 column 11: `256` doesn't fit here; one octet is at most 255\n",
    ),
    (
        b"half 4 != 65536 -> 1\n",
        b"fault rules 3 TooLarge 1 11\n"
        b"line 1 column 11: `65536` doesn't fit here; two octets are at most 65535\n",
    ),
    (
        b"define gold = 2..1\n",
        b"fault rules 3 TooLarge 1 18\n"
        b"line 1 column 18: `1` doesn't fit here; the last number of a range is at least its first, and four octets are at most 4294967295\n",
    ),
    (
        b"define gold = 256\n"
        b"vpi gold -> 1\n",
        b"fault rules 3 TooLarge 2 5\n"
        b"line 2 column 5: `gold` means a number that doesn't fit here; vpi is at most 255, and between nodes (`side nni`) at most 4095\n",
    ),
    (
        b"octet 52 1 -> 1\n",
        b"fault rules 4 OutsideCell 1 7\n"
        b"line 1 column 7: a cell has the octets 0 to 51; `octet` takes an offset of 0 to 51\n",
    ),
    (
        b"half 51 1 -> 1\n",
        b"fault rules 4 OutsideCell 1 6\n"
        b"line 1 column 6: a cell has the octets 0 to 51; `half` takes an offset of 0 to 50\n",
    ),
    (
        b"word 49 1 -> 1\n",
        b"fault rules 4 OutsideCell 1 6\n"
        b"line 1 column 6: a cell has the octets 0 to 51; `word` takes an offset of 0 to 48\n",
    ),
    (
        b"otherwise -> 1\n"
        b"any -> 2\n",
        b"fault rules 5 AfterOtherwise 2 1\n"
        b"line 2 column 1: no line comes after `otherwise`\n",
    ),
    (
        b"oam) -> 1\n",
        b"fault rules 6 Unbalanced 1 4\n"
        b"line 1 column 4: no `(` is open here\n",
    ),
    (
        b"}\n",
        b"fault rules 6 Unbalanced 1 1\n"
        b"line 1 column 1: no block is open here\n",
    ),
    (
        b"(oam -> 1\n",
        b"fault rules 6 Unbalanced 1 1\n"
        b"line 1 column 1: this `(` isn't closed; its `)` comes before the test ends\n",
    ),
    (
        b"(oam) {\n",
        b"fault rules 6 Unbalanced 1 1\n"
        b"line 1 column 1: this block isn't closed; a `}` ends it\n",
    ),
    (
        b"(((((((((((((((((((((((((((((((((((((((((((((((((((((((((((((((((oam",
        b"fault rules 7 TooDeep 1 65\n"
        b"line 1 column 65: at most 64 blocks and parentheses are open at once\n",
    ),
    (
        b"othrwise -> 1\n",
        b"fault rules 10 UnknownName 1 1\n"
        b"line 1 column 1: `othrwise` is no word of rules, and no line before gives it as a name; perhaps `otherwise` is meant\n",
    ),
    (
        b"oam andd rm -> 1\n",
        b"fault rules 10 UnknownName 1 5\n"
        b"line 1 column 5: `andd` is no word of rules, and no line before gives it as a name; perhaps `and` is meant\n",
    ),
    (
        b"side nnni\n",
        b"fault rules 10 UnknownName 1 6\n"
        b"line 1 column 6: `nnni` is no word of rules, and no line before gives it as a name; perhaps `nni` is meant\n",
    ),
    (
        b"any -> refsue\n",
        b"fault rules 10 UnknownName 1 8\n"
        b"line 1 column 8: `refsue` is no word of rules, and no line before gives it as a name; perhaps `refuse` is meant\n",
    ),
    (
        b"any -> accept\n",
        b"fault rules 10 UnknownName 1 8\n"
        b"line 1 column 8: `accept` is no word of rules, and no line before gives it as a name; a value comes next: a number, the name of a contract, or `refuse`\n",
    ),
    (
        b"define voice = 1/32\n"
        b"voise -> 1\n",
        b"fault rules 10 UnknownName 2 1\n"
        b"line 2 column 1: `voise` is no word of rules, and no line before gives it as a name; perhaps `voice` is meant\n",
    ),
    (
        b"define ones = 1, 7\n"
        b"contract one = 1\n"
        b"vpi oness -> one\n",
        b"fault rules 10 UnknownName 3 5\n"
        b"line 3 column 5: `oness` is no word of rules, and no line before gives it as a name; perhaps `ones` is meant\n",
    ),
    (
        b"define godl = 1; contract gold = 1; any -> glod\n",
        b"fault rules 10 UnknownName 1 44\n"
        b"line 1 column 44: `glod` is no word of rules, and no line before gives it as a name; perhaps `gold` is meant\n",
    ),
    (
        b"define cll = 1\n"
        b"cl 1 -> 1\n",
        b"fault rules 10 UnknownName 2 1\n"
        b"line 2 column 1: `cl` is no word of rules, and no line before gives it as a name; perhaps `cll` is meant\n",
    ),
    (
        b"define voice = vocie\n",
        b"fault rules 10 UnknownName 1 16\n"
        b"line 1 column 16: `vocie` is no word of rules, and no line before gives it as a name; a test or a list of numbers comes after `=`\n",
    ),
    (
        b"define any = 1\n",
        b"fault rules 11 NameTaken 1 8\n"
        b"line 1 column 8: `any` is a word of rules, and no name\n",
    ),
    (
        b"contract gold = 1\n"
        b"define gold = 1\n",
        b"fault rules 11 NameTaken 2 8\n"
        b"line 2 column 8: `gold` is given by line 1; a name is given once\n",
    ),
    (
        b"vpi 1 {\n"
        b"oam -> 3\n"
        b"}\n"
        b"otherwise -> 2\n",
        b"no fault in 1 rule\n",
    ),
    (
        b"vci 3 -> 1\n"
        b"vci 4 -> 2\n"
        b"oamf4 -> 3\n"
        b"user and rm -> 1\n",
        b"no fault in 4 rules\n"
        b"hint line 3: this rule decides no cell; line 1 and line 2 take its cells\n"
        b"hint line 4: this rule holds of no cell\n",
    ),
    (
        b"vci 3 -> 1\n"
        b"vci 3 and clp 1 -> 2\n",
        b"no fault in 2 rules\n"
        b"hint line 2: this rule decides no cell; line 1 takes its cells\n",
    ),
    (
        b"vci 0 -> 1\n"
        b"vci 1 -> 1\n"
        b"vci 2 -> 1\n"
        b"vci 3 -> 1\n"
        b"vci 4 -> 1\n"
        b"vci 5 -> 1\n"
        b"vci 6 -> 1\n"
        b"vci 7 -> 1\n"
        b"vci 8 -> 1\n"
        b"vci 9 -> 1\n"
        b"vci 0..9 -> 2\n",
        b"no fault in 11 rules\n"
        b"hint line 11: this rule decides no cell; line 1, line 2, line 3, line 4, line 5, line 6, line 7, line 8 and 2 more take its cells\n",
    ),
)


def cases():
    """Yields the explanation of each text."""
    for text, answer in TEXTS:
        yield explained(b"rules\n" + text, answer)
