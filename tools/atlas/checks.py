"""What the sources and pages have to be like."""
import os
import re
import subprocess

from . import definitions, history, memory, places
from .definitions import reached
from .files import ROOT, exists, files_below, text_of

LINK = re.compile(r"\]\(([^)#\s]*)(?:#([^)]*))?\)")
HEADING = re.compile(r"^#+ (.*)$", re.M)
# A name in a page that reads like a function or a definition: of one word with an underscore or a `::`, or of two capitals.
NAME = re.compile(r"`([A-Za-z_][\w]*(?:::[\w]+)+|[a-z]+(?:_[a-z0-9]+)+|[A-Z][a-z]+[A-Z]\w*)(?:\(\))?`")


def comments(sources):
    """Yields each public function without a doc comment."""
    for it in sources.functions:
        if sources.is_open(it) and not it.sentence and not (it.owner and it.trait):
            yield f"{it.path}:{it.line}: {it.full} has no doc comment"


def is_named(path, function, crates):
    """Returns whether a path, or the end of one, is that of a function. The prover puts a method under the module of its type, which may be
    another file, so only the crate and the type of its path count."""
    if not function.owner:
        return f"::{function.full}".endswith(f"::{path}")
    *before, _ = path.split("::")
    if not before:
        return True
    is_of_crate = before[0] == function.crate or before[0] not in crates
    return is_of_crate and before[-1].startswith(function.owner)


def turned(sources):
    """Yields each public function with a promise that no bug turns and that doesn't say why, and bugs that serve nothing."""
    known = {}
    for it in sources.functions:
        known.setdefault((it.crate, it.name), []).append(it)
    for it in sources.functions:
        promises = any(clause.kind == "ensures" for clause in it.clauses)
        if sources.is_open(it) and promises and not it.is_law and not it.no_edit and not sources.edits_of(it) and not sources.edits_below(it):
            yield f"{it.path}:{it.line}: no planted bug turns {it.full}, and no comment 'no edit: ..' says why"
    for it in sources.edits:
        if it.fault:
            yield f"{it.where}: {it.fault}"
        named = known.get((it.crate, it.function.rpartition("::")[2]), [])
        if it.function and not any(is_named(it.function, other, sources.crates) for other in named):
            yield f"{it.where}: {it.crate} has no function {it.function}"


def defined(sources):
    """Yields what is wrong with the definitions."""
    promises = [it for crate in sources.crates for it in definitions.promises(crate)]
    may = [it for crate in sources.crates for it in definitions.invariants(crate)]
    promised, allowed = reached(sources.specs, promises), reached(sources.specs, may)
    promised |= {it for it in allowed if not it.module.helps()}
    yield from definitions.faults(sources.specs, promised, allowed)


def meant(sources):
    """Yields each name that two definitions have: a name has one meaning."""
    of = {}
    for module in sources.specs.modules.values():
        for it in module.definitions.values():
            of.setdefault(it.name, []).append(f"{module.path}:{it.line}")
    for name, places in sorted(of.items()):
        if len(places) > 1:
            yield f"{places[0]}: {name} is also defined in {', '.join(places[1:])}"


def pages_of(sources):
    """Returns the pages: README, docs/ and those of the crates, and where each link begins."""
    pages = ["README.md", *files_below("docs", ".md"), "bench/README.md", "reference/README.md"]
    pages += [it for it in files_below("bench", ".md") if it not in pages]
    return [it for it in [*pages, *(f"crates/{crate}/README.md" for crate in sources.crates)] if exists(it)]


def anchors_of(text):
    """Returns how links name the headings of a page."""
    return {re.sub(r"[^\w -]", "", it.lower()).replace(" ", "-") for it in HEADING.findall(text)}


def linked(sources):
    """Yields each link of a page to a file that doesn't exist, or to a planted bug or a heading that its file doesn't have."""
    bugs = {(it.path, it.name) for it in sources.edits}
    for page in pages_of(sources):
        for target, part in LINK.findall(text_of(page)):
            path = os.path.normpath(f"{os.path.dirname(page)}/{target}") if target else page
            if re.match(r"https?:", target):
                continue
            if not exists(path):
                yield f"{page}: no file {target}"
            elif path.endswith(".edits") and (path, part) not in bugs:
                yield f"{page}: {target} has no bug {part}"
            elif path.endswith(".md") and part and part not in anchors_of(text_of(path)):
                yield f"{page}: {path} has no heading {part}"


def named(sources):
    """Yields each name of a function or definition in docs/ that doesn't exist."""
    known = {it.name for it in sources.functions} | {clause.name for it in sources.functions for clause in it.clauses}
    known |= {name for module in sources.specs.modules.values() for it in module.definitions.values() for name in [it.name, *it.parts]}
    known |= set(sources.crates)
    code = "\n".join(text_of(it) for crate in sources.crates for it in files_below(f"crates/{crate}/src", ".rt"))
    words = set(re.findall(r"\w+", code)) | set(re.findall(r"\w+", text_of("include/upc.h")))
    for folder in ("bench", "tools", "tests", "bin", "reference"):
        for at, _, names in os.walk(f"{ROOT}/{folder}"):
            words |= {part for name in names for part in (name, name.rpartition(".")[0])}
    for it in files_below("bench", ".rs"):
        words |= set(re.findall(r"\w+", text_of(it)))
    for page in ["README.md", *files_below("docs", ".md")]:
        for name in NAME.findall(text_of(page)):
            last = name.rpartition("::")[2]
            if last not in known and last not in words and name not in KIT_NAMES:
                yield f"{page}: nothing is called {name}"


def placed(sources):
    """Yields each path and each crate that a script or page names and that doesn't exist."""
    pages = [*pages_of(sources), *(it for it in files_below("examples", ".md"))]
    yield from places.missing(pages)
    yield from places.gone(pages, sources.crates)


def failed(sources):
    """Yields each place that says that memory ran out for another reason than one failed call."""
    for it in memory.all_places(sources):
        if it.fault:
            yield f"{it.function.path}:{it.line}: {it.function.name} says that memory ran out, but {it.fault}"


# Names of the toolchain's and of other programs', which pages may name.
KIT_NAMES = {"bpf_filter", "bpf_validate", "rte_meter", "may_wait", "tests_may", "std_alloc", "std_heap", "opt_level"}


def coded(sources):
    """Yields what is wrong with the code of the crates' pages: it has to be in the file that the page names above it, line by line."""
    for crate in sources.crates:
        page = f"crates/{crate}/README.md"
        if not exists(page):
            yield f"{page}: there is none"
            continue
        text = text_of(page)
        code = "\n".join(line.strip() for fence in re.findall(r"^```\w*\n(.*?)^```", text, re.M | re.S) for line in fence.split("\n") if line.strip())
        source = re.search(r"^.*\(\[`(\w+)`\]\(([^)]*)\)\):$", text, re.M)
        if not code:
            yield f"{page}: it has no code"
        elif not source:
            yield f"{page}: it doesn't say where its code is from"
        else:
            path = os.path.normpath(f"crates/{crate}/{source[2]}")
            lines = "\n".join(line.strip() for line in text_of(path).split("\n") if line.strip()) if exists(path) else ""
            if code not in lines:
                yield f"{page}: its code isn't in {source[2]}"


def layers_of(text):
    """Returns the layers of crates.txt, lowest first: of each its name, and its crates in their order, each with the libraries that it lists."""
    found = [("", [])]
    for line in text.split("\n"):
        heading, crate = re.match(r"# Layer (\w[\w ]*):", line), re.match(r"([a-z]\w*)[^:]*:(.*)", line)
        if heading:
            found.append((heading[1], []))
        elif crate:
            found[-1][1].append((crate[1], crate[2].split()))
    return [it for it in found if it[1]]


def rising(layers):
    """Yields each crate that uses a crate of a layer above its own, or one that comes after it in its own layer."""
    at = {crate: (number, place) for number, (_, crates) in enumerate(layers) for place, (crate, _) in enumerate(crates)}
    for number, (layer, crates) in enumerate(layers):
        for place, (crate, uses) in enumerate(crates):
            for it in uses:
                if at.get(it, (0, -1)) > (number, place):
                    other = layers[at[it][0]][0]
                    yield f"crates.txt: {crate} of layer {layer} uses {it}, which comes after it{'' if other == layer else f', in layer {other}'}"


def drawn(layers, page):
    """Yields how the table of layers of a page differs from crates.txt. The page has the highest layer first, and tests, which nothing uses, at its end."""
    layer, rows = "", []
    for first, crates in re.findall(r"^\| ([^|]*) ?\| ((?:`\w+`(?:, )?)+) \|", page, re.M):
        layer = first.strip() or layer
        rows += [(layer, it) for it in re.findall(r"`(\w+)`", crates)]
    listed = [(layer, crate) for layer, crates in layers for crate, _ in crates]
    for layer, crate in sorted(set(listed) - set(rows)):
        yield f"docs/ARCHITECTURE.md: the table lacks {crate} in layer {layer}"
    for layer, crate in sorted(set(rows) - set(listed)):
        yield f"docs/ARCHITECTURE.md: the table has {crate} in layer {layer}, and crates.txt hasn't"
    order = list(dict.fromkeys(layer for layer, _ in rows))
    if order != sorted((layer for layer, _ in reversed(layers)), key=lambda it: it == "tests"):
        yield f"docs/ARCHITECTURE.md: the layers are in another order than those of crates.txt: {', '.join(order)}"


def layered(sources):
    """Yields each arrow between crates that goes up, and each difference between crates.txt and the table of layers."""
    layers = layers_of(text_of("crates.txt"))
    yield from rising(layers)
    yield from drawn(layers, text_of("docs/ARCHITECTURE.md"))


def twice(layers, texts):
    """Yields each file with tests whose crate isn't of the layer of tests. `texts` has the text of each file, by its path, of each crate."""
    for layer, crates in layers:
        for crate, _ in crates:
            for path, text in texts.get(crate, {}).items():
                if layer != "tests" and "#[test]" in text:
                    yield f"{path}: it has tests, so {crate} is proved twice; they belong in a crate of the layer tests"


def proved_once(sources):
    """Yields each file whose tests have the gate prove a crate twice."""
    texts = {crate: {it: text_of(it) for it in files_below(f"crates/{crate}/src", ".rt")} for crate in sources.crates}
    yield from twice(layers_of(text_of("crates.txt")), texts)


def explained(sources):
    """Yields each commit that changes a contract or a figure without a word about it."""
    yield from history.silent()


def applied(sources):
    """Yields each wrong body that only tests find whose patch doesn't fit the sources. The gate tries only some of them."""
    for crate in sources.crates:
        for path in files_below(f"crates/{crate}/must-fail-by-test", ".patch"):
            with open(f"{ROOT}/{path}", "rb") as it:
                tried = subprocess.run(["patch", "-p1", "--fuzz=0", "--dry-run"], cwd=ROOT, stdin=it, stdout=subprocess.PIPE, stderr=subprocess.STDOUT)
            if tried.returncode:
                yield f"{path}: it can't be applied"


def is_there(crate, test):
    """Returns whether a crate has this test, such as tests::lines::NAME."""
    *modules, name = test.split("::")
    path = f"crates/{crate}/src/{'/'.join(modules)}.rt"
    return exists(path) and re.search(rf"^fn {name}\b", text_of(path), re.M) is not None


def caught(sources):
    """Yields each wrong body that only tests find whose test isn't in the crate that it names."""
    for crate in sources.crates:
        for path in files_below(f"crates/{crate}/must-fail-by-test", ".patch"):
            fields = dict(re.findall(r"^(Crate|Test): (.+)$", text_of(path), re.M))
            if not is_there(fields["Crate"], fields["Test"]):
                yield f"{path}: {fields['Crate']} has no test {fields['Test']}"


def differing(listed, asked):
    """Yields each package that a check asks for and that isn't listed for it, and the other way round. Both are sets of a package and a check."""
    for package, check in sorted(asked - listed):
        yield f"{check}: tools/packages doesn't list {package} for it"
    for package, check in sorted(listed - asked):
        yield f"tools/packages: {check} doesn't ask for {package}"


def packaged(sources):
    """Yields what is wrong with tools/packages. Scripts of tests/ ask for a package by `needs` or run tools/needs, pages by a mark of tests/pages."""
    lines = [line.split(None, 2) for line in text_of("tools/packages").split("\n") if line and not line.startswith("#")]
    listed = {(package, check) for package, _, checks in lines for check in checks.split(", ")}
    asked = {(package, "tests/pages") for page in pages_of(sources) for package in re.findall(r"<!-- needs (\S+) -->", text_of(page))}
    for name in os.listdir(f"{ROOT}/tests"):
        if os.path.isfile(f"{ROOT}/tests/{name}"):
            asked |= {(package, f"tests/{name}") for package in re.findall(r"(?:(?:if|!|&&|\|\|) needs |tools/needs\", \")([a-z0-9.+-]+)[ \"]", text_of(f"tests/{name}"))}
    yield from differing(listed, asked)


CHECKS = (comments, turned, defined, meant, linked, named, placed, failed, coded, layered, proved_once, explained, applied, caught, packaged)


def checked(sources):
    """Returns how many things were looked at, and what is wrong."""
    wrong = [it for check in CHECKS for it in check(sources)]
    looked = sum(sources.is_open(it) for it in sources.functions) + len(sources.edits) + sum(len(it.definitions) for it in sources.specs.modules.values()) + len(pages_of(sources))
    return looked, wrong
