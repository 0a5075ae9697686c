"""All of it together: for each function and definition what belongs to it."""
import functools
import re

from . import definitions, edits, functions
from .files import below, crates, exists, files_below, text_of


class Sources:
    """The repository's functions, definitions, tests and planted bugs, and how they belong together."""

    def __init__(self):
        self.crates = crates()
        self.functions = [it for crate in self.crates for it in functions.functions_of(crate)]
        self.specs = definitions.Specs()
        self.by_name = {}
        for it in self.functions:
            self.by_name.setdefault(it.name, []).append(it)
        self.test_crates = {it.crate for it in self.functions if it.is_test}
        self.below = {crate: below(crate, self.crates) for crate in self.crates}
        self.called = {}

    @functools.cached_property
    def edits(self):
        return [it for crate in self.crates for it in edits.edits_of(crate)]

    @functools.cached_property
    def patches(self):
        return [it for crate in self.crates for it in edits.patches_of(crate)]

    @functools.cached_property
    def edits_by_function(self):
        found = {}
        for it in self.edits:
            found.setdefault(it.function.rpartition("::")[2], []).append(it)
        return found

    @functools.lru_cache(maxsize=None)
    def edits_of(self, function):
        """Returns the edits that turn this function, those of each gate first."""
        ends = lambda it: function.full == it.function or function.full.endswith("::" + it.function)
        return [it for it in self.edits_by_function.get(function.name, []) if it.crate == function.crate and ends(it)]

    @functools.lru_cache(maxsize=None)
    def edits_below(self, function):
        """Returns the edits that turn private functions to which this one hands its work, itself or by others."""
        seen, left, found = {function}, [function], []
        while left:
            for it in self.called_by(left.pop()):
                if it not in seen and not self.is_open(it):
                    seen.add(it)
                    left.append(it)
                    found += self.edits_of(it)
        return found

    @functools.lru_cache(maxsize=None)
    def proof_of(self, function):
        """Returns the files with what is written of a function's proof: its own, and those of the lemmas that its attribute names."""
        path = "/".join(it for it in (function.module.replace("::", "/"), function.owner + function.trait, function.name) if it)
        folder = f"crates/{function.crate}/proofs/{path}"
        above, at = [], function.line - 2
        lines = text_of(function.path).split("\n")
        while at >= 0 and lines[at].strip().startswith(("//", "#[")):
            above.append(lines[at])
            at -= 1
        lemmas = re.findall(r"crate::proofs::([\w:]+)::\w+", "\n".join(above))
        shared = {f"crates/{function.crate}/proofs/{it.replace('::', '/')}.antt" for it in lemmas}
        return [*files_below(folder, ".antt"), *sorted(it for it in shared if exists(it))]

    def called_by(self, function):
        """Returns the functions of its own crate that a function calls."""
        if function not in self.called:
            found = []
            for owner, is_method, name in function.calls:
                for it in self.by_name.get(name, []):
                    if it.crate == function.crate and it is not function and self.is_called(it, owner, is_method, function):
                        found.append(it)
            self.called[function] = sorted(found, key=lambda it: (it.path, it.line))
        return self.called[function]

    def is_called(self, it, owner, is_method, caller):
        """Returns whether a call names this function, as far as its text says."""
        if owner in ("Self", "self"):
            return it.owner == caller.owner
        if owner and owner[0].isupper():
            return it.owner == owner
        return bool(it.owner) == is_method if not owner else not it.owner

    @functools.cached_property
    def reached_by_tests(self):
        """For each test what it calls, itself or by functions of the tests' own modules."""
        found = {}
        for crate in self.test_crates:
            ours = [it for it in self.functions if it.crate == crate]
            names = {}
            for it in ours:
                names.setdefault(it.name, []).append(it)
            for test in (it for it in ours if it.is_test):
                seen, left = {test}, [test]
                while left:
                    for _, _, name in left.pop().calls:
                        for it in names.get(name, []):
                            if it not in seen and it.module.startswith(("tests", test.module)):
                                seen.add(it)
                                left.append(it)
                found[test] = {call for it in seen for call in it.calls}, {it.path for it in seen}
        return found

    @functools.cached_property
    def calls_of_tests(self):
        """For each name the tests that call what has it: the test, the type before `::`, whether it is a method, and the files that it reaches."""
        found = {}
        for test, (called, paths) in self.reached_by_tests.items():
            for owner, is_method, name in called:
                found.setdefault(name, []).append((test, owner, is_method, paths))
        return found

    @functools.cached_property
    def owners_of_methods(self):
        found = {}
        for it in self.functions:
            if it.owner:
                found.setdefault(it.name, set()).add(it.owner)
        return found

    @functools.lru_cache(maxsize=None)
    def tests_of(self, function):
        """Returns the tests that call a function."""
        found = {}
        for test, owner, is_method, paths in self.calls_of_tests.get(function.name, []):
            is_near = function.crate == test.crate or function.crate in self.below[test.crate]
            if is_near and test not in found and self.is_test_call(function, owner, is_method, paths):
                found[test] = True
        return list(found)

    def is_test_call(self, function, owner, is_method, paths):
        if owner and owner[0].isupper():
            return owner == function.owner
        if not is_method:
            return not function.owner
        # A method's type isn't in the call: if several types have a method of this name, the file has to name the type.
        others = self.owners_of_methods[function.name] if function.owner else ()
        return bool(function.owner) and (len(others) == 1 or any(re.search(rf"\b{function.owner}\b", text_of(it)) for it in paths))

    @functools.lru_cache(maxsize=None)
    def cited_by(self, function):
        """Returns the definitions that a function's clauses cite, in their order."""
        imported = imports_of(function.path)
        found = []
        for clause in function.clauses:
            for it in self.specs.cited(clause.text, imported):
                if it not in found:
                    found.append(it)
        return found

    @functools.cached_property
    def promisers(self):
        """For each definition the public functions whose clauses reach it."""
        found = {}
        for function in self.functions:
            if self.is_open(function):
                for it in definitions.reached(self.specs, [(clause.text, imports_of(function.path)) for clause in function.clauses]):
                    found.setdefault(it, []).append(function)
        return found

    @functools.cached_property
    def public(self):
        roots = {crate: next(it for it in (f"crates/{crate}/src/lib.rt", f"crates/{crate}/src/main.rt") if exists(it)) for crate in self.crates}
        return {crate: definitions.names_given(root) for crate, root in roots.items()}

    @functools.lru_cache(maxsize=None)
    def is_open(self, it):
        """Returns whether callers in other crates can call a function."""
        if it.module.split("::")[0] == "tests" or it.is_test:
            return False
        names, modules = self.public[it.crate]
        if it.owner:
            return it.owner in names and (it.is_pub or it.trait in names)
        return it.is_pub and (it.name in names or it.module in modules)


@functools.lru_cache(maxsize=None)
def imports_of(path):
    """Returns what a source file imports for its clauses."""
    return definitions.imports(text_of(path))


@functools.lru_cache(maxsize=None)
def lemma_files(crate):
    """Returns the files of lemmas of a crate."""
    return [it for it in files_below(f"crates/{crate}/proofs", ".antt") if not it.endswith(("Answers.antt", "Invariants.antt", "Proof.antt"))]
