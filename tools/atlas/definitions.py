"""The definitions of specs/, and which of them are promised.

A definition is promised if the contract of a public function, the view of a public type, a law or a promised
definition cites it.
"""
import os
import re

from .files import ROOT, crates, files_below, text_of

# A word of a definition or a clause, or the dot of a path.
WORD = re.compile(r"[^\s(){}\[\],.;:→×⊎λ|↦]+|\.")
IMPORT = re.compile(r"^\s*(?:ghost )?use (Rattle\.[^\s;{]*?)(?:\.\{([^}]*)\}| as ([^\s;]+))?;?$", re.M)
MUTUAL = re.compile(r"(?:(?:abbrev|unfoldable) )?mutual$")
BEGINS = re.compile(r"(?:(?:abbrev|unfoldable) )*(pub )?(?:(record|data) )?([^\s(){}:]+)")
# Ghost items of an impl that are obligations, and promise nothing that a clause doesn't.
OBLIGATIONS = ("laws", "is_total", "total", "matches_partial_cmp", "matches_eq", "respects_eq")

class Definition:
    """A definition: its module, its name, the sentence above it, its text, its line, and the names of its parts."""

    def __init__(self, module, name, kind, sentence, line):
        self.module, self.name, self.kind, self.sentence = module, name, kind, sentence
        self.text, self.parts, self.line = line, [], 0

    def add(self, line):
        self.text += "\n" + line
        part = re.match(r"\s+(?:pub )?([^\s:]+)\s*:", line)
        if self.kind and part:
            self.parts.append(part.group(1))


class Module:
    """A file of specs/: its path, its first sentence, its definitions in order, and what it imports."""

    def __init__(self, crate, path):
        inside = path.removeprefix(f"crates/{crate}/specs/").removesuffix(".antt")
        self.crate, self.path, self.inside = crate, path, inside
        self.name = f"Rattle.{crate}.specs." + inside.replace("/", ".")
        self.sentence, self.definitions = "", {}
        source = text_of(path)
        self.imports = imports(source)
        self.read(source.split("\n"))

    def read(self, lines):
        comment, current, begun, indent, block = [], None, False, "", False
        for at, line in enumerate(lines):
            if MUTUAL.match(line):
                indent, block, comment, current = "  ", True, [], None
                continue
            if block and line.strip() and not line.startswith("  "):
                indent, block = "", False
            if line.startswith("module "):
                indent, comment, current = "  ", [], None
                continue
            own = line[len(indent) :] if line.startswith(indent) else line
            if own.startswith("-- "):
                comment, current = comment + [own[3:]], None
            elif own.startswith(("use ", "pub use ", "pub mod ")):
                self.sentence = self.sentence if begun else " ".join(comment)
                comment, begun = [], True
            elif not own.strip():
                current = None
                if not begun:
                    self.sentence, comment, begun = " ".join(comment), [], True
            elif own[0] in " \t":
                if current:
                    current.add(own)
            else:
                current = self.begin(own, comment, current, at + 1)
                comment = []

    def begin(self, line, comment, current, number):
        found = BEGINS.match(line)
        if not found:
            return current
        _, kind, name = found.groups()
        if name in self.definitions:
            self.definitions[name].add(line)
        else:
            self.definitions[name] = Definition(self, name, kind, " ".join(comment), line)
            self.definitions[name].line = number
        return self.definitions[name]

    def helps(self):
        return self.inside.startswith(("inner", "examples"))

    def named(self, name):
        """The definition of this name, or the type that this is a constructor of."""
        if name in self.definitions:
            return self.definitions[name]
        of = [it for it in self.definitions.values() if it.kind == "data" and name in it.parts]
        return of[0] if of else None


def imports(source):
    """What a text imports: (module, name) by name, and modules by alias."""
    names, aliases = {}, {}
    for module, listed, alias in IMPORT.findall(source):
        for it in filter(None, (it.strip() for it in listed.split(","))):
            theirs, _, ours = it.partition(" as ")
            names[(ours or theirs).strip()] = (module.rstrip("."), theirs.strip())
        if alias:
            aliases[alias] = module
    return names, aliases


class Specs:
    """The definitions of all crates."""

    def __init__(self):
        self.modules, self.citing = {}, {}
        for crate in crates():
            for path in files_below(f"crates/{crate}/specs", ".antt"):
                module = Module(crate, path)
                self.modules[module.name] = module

    def cited_in(self, definition):
        """Returns the definitions that a definition cites."""
        if definition not in self.citing:
            self.citing[definition] = list(self.cited(definition.text, definition.module.imports, definition.module))
        return self.citing[definition]

    def find(self, module, name):
        return self.modules[module].named(name) if module in self.modules else None

    def cited(self, text, imported, home=None):
        """Yields the definitions that a text cites. `home` is the module of the text, if it is in one."""
        names, aliases = imported
        words = WORD.findall(text)
        for at, word in enumerate(words):
            if word in aliases and words[at + 1 : at + 2] == ["."]:
                found = self.find(aliases[word], words[at + 2])
            elif home and home.named(word):
                found = home.named(word)
            else:
                found = self.find(*names[word]) if word in names else None
            if found:
                yield found


def public_names(crate):
    """The names that a library gives to its callers, and its public modules; None for a program."""
    root = f"crates/{crate}/src/lib.rt"
    return names_given(root) if os.path.exists(f"{ROOT}/{root}") else None


def names_given(root):
    """Returns the names that a root file gives to callers, and its public modules."""
    source = text_of(root)
    names = set()
    for listed, one in re.findall(r"^pub use [\w:]+::(?:\{([^}]*)\}|(\w+));", source, re.M):
        names.update(it.strip().split(" as ")[-1] for it in (listed or one).split(",") if it.strip())
    return names, re.findall(r"^pub mod (\w+);", source, re.M)


def owner_of(line):
    """The type or trait whose items follow a line `impl ..` or `trait ..`, and the trait that is implemented."""
    found = re.match(r"(?:pub )?(?:unsafe )?trait (\w+)", line)
    if found:
        return found.group(1), found.group(1)
    found = re.match(r"(?:unsafe )?impl\b(.*)", line)
    if not found:
        return None
    rest = re.sub(r"^\s*<(?:[^<>]|<[^<>]*>)*>", "", found.group(1)).strip()
    found = re.match(r"(?:([\w:]+)(?:<.*?>)? for )?&?([\w:]+)", rest)
    return (found.group(2), found.group(1)) if found else (None, None)


def header(lines, at):
    """The lines of a function from its name to its body."""
    indent = re.match(r" *", lines[at]).group(0)
    taken = []
    for line in lines[at:]:
        if line in (indent + "{", indent + "}", "}"):
            break
        taken.append(line)
        if re.fullmatch(re.escape(indent) + r"(pub |unsafe |const |fn |\)).*[{;]", line) or line.endswith("};"):
            break
    return "\n".join(taken)


def block(lines, at):
    """The lines from this one on until its braces are closed."""
    taken = ""
    for line in lines[at:]:
        taken += line + "\n"
        if taken.count("{") <= taken.count("}"):
            break
    return taken


def promises(crate):
    """The texts by which a crate promises something: contracts of public functions, views of public types."""
    public = public_names(crate)
    for path in files_below(f"crates/{crate}/src", ".rt"):
        inside = path.removeprefix(f"crates/{crate}/src/").removesuffix(".rt")
        if inside.split("/")[0] == "tests":
            continue
        source = text_of(path)
        yield from ((it, imports(source)) for it in promises_of(source.split("\n"), public, inside))


def promises_of(lines, public, inside):
    def is_named(name):
        return public is None or name in public[0]

    owner, of_trait = None, None
    for at, line in enumerate(lines):
        if line.startswith(("impl", "unsafe impl", "trait", "pub trait", "pub unsafe trait")):
            owner, of_trait = owner_of(line)
        elif line.startswith("}"):
            owner, of_trait = None, None
        is_ours = bool(owner) and (is_named(owner) or (public is not None and of_trait in public[0]))
        function = re.match(r'( *)(pub )?(?:unsafe )?(?:const )?(?:extern "C" )?fn (\w+)', line)
        ghost = re.match(r"    ghost (\w+)", line)
        if function:
            indent, is_public, name = function.groups()
            if indent:
                is_open = is_ours and (is_public or of_trait)
            else:
                is_open = is_public and (is_named(name) or inside in public[1])
            if is_open:
                yield "\n".join(re.findall(r"(?s)\b(?:ensures|requires)\b.*", header(lines, at)))
        elif ghost and is_ours and ghost.group(1) not in ("use", "view", "inverse", "invariant", *OBLIGATIONS):
            yield block(lines, at)
        elif ghost and owner == of_trait and is_ours and ghost.group(1) != "use":
            yield block(lines, at)


def invariants(crate):
    """The invariants of public types: they may be promised, but need not."""
    public = public_names(crate)
    for path in files_below(f"crates/{crate}/src", ".rt"):
        source = text_of(path)
        lines, owner = source.split("\n"), None
        for at, line in enumerate(lines):
            if line.startswith(("impl", "unsafe impl")):
                owner = owner_of(line)[0]
            if re.match(r"    ghost invariant", line) and (public is None or owner in public[0]):
                yield block(lines, at), imports(source)


def reached(specs, texts):
    """All definitions that the texts cite, and that these cite."""
    found, left = set(), [it for text, imported in texts for it in specs.cited(text, imported)]
    while left:
        it = left.pop()
        if it not in found:
            found.add(it)
            left.extend(specs.cited_in(it))
    return found


def in_order(specs, crate):
    """The modules of a crate that may be promised, in the order of reading."""
    order = re.findall(r"^pub mod (\w+)", text_of(f"crates/{crate}/specs/Lib.antt"), re.M)
    names = [f"Rattle.{crate}.specs.{it}" for it in order]
    return [specs.modules[it] for it in names if it in specs.modules and not specs.modules[it].helps()]


def sentence(text):
    """Returns a sentence with its capital and its stop."""
    text = text[:1].upper() + text[1:]
    return text if text.endswith((".", ":")) else text + "."


def hidden_types(definition):
    """The types of a library's own code that a definition cites and no caller can name."""
    names, _ = definition.module.imports
    for word in WORD.findall(definition.text):
        module, name = names.get(word, ("", ""))
        found = re.match(r"Rattle\.(\w+)\.specs\.declared\.", module)
        if found and found.group(1) in set(crates()) and re.match(r"[A-Z]", name) and "TheVariants" not in module:
            public = public_names(found.group(1))
            # The members of a trait are the record `Ghosts` in the trait's module. Values of a type that a `Vec` of the type
            # holds are a row of the type.
            known_as = module.rpartition(".")[2] if name == "Ghosts" else name.removeprefix("Row_of-")
            if public is not None and known_as not in public[0]:
                yield known_as


def faults(specs, promised, allowed):
    for module in specs.modules.values():
        for it in module.definitions.values():
            where = f"{module.path}: {it.name}"
            if it in promised and not it.sentence:
                yield f"{where} is promised, and has no sentence"
            if it in promised and module.helps():
                yield f"{where} is promised, and is in the folder of those that only help"
            if it not in promised and it not in allowed and not module.helps():
                yield f"{where} only helps, and is among the promised ones"
            if it in promised:
                yield from (f"{where} is promised, and cites {name}, which no caller can name" for name in hidden_types(it))
