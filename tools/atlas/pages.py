"""Writes the whole map: a page for each crate, with links."""
import html
import os
import re

from .definitions import in_order, sentence
from .files import ROOT, exists

STYLE = "body{font:16px/1.45 sans-serif;max-width:60em;margin:2em auto;padding:0 1em}h3{margin:1.6em 0 .2em}dl{margin:.2em 0 1em;display:grid;grid-template-columns:7em 1fr}dt{color:#666}dd{margin:0}code{font-size:.92em}"


def link(path, line=0, name=""):
    """Returns a link to a file of the repository, from out/map/."""
    shown = html.escape(name or path) + (f":{line}" if line and not name else "")
    return f'<a href="../../{html.escape(path)}"><code>{shown}</code></a>'


def rows(pairs):
    """Returns titles with their values; those without a value are left out."""
    shown = "".join(f"<dt>{title}</dt><dd>{'<br>'.join(values)}</dd>" for title, values in pairs if values)
    return f"<dl>{shown}</dl>"


def function_part(sources, it):
    """Returns the part of a page on a public function."""
    clauses = [f"<code>{html.escape(clause.kind + ' ' + clause.name)}</code> {html.escape(clause.sentence)}" for clause in it.clauses]
    proofs = sources.proof_of(it)
    reason = "a law has no code to turn" if it.is_law else it.no_edit
    edits = [link(edit.path, edit.line, edit.name) for edit in sources.edits_of(it) + sources.edits_below(it)] or [html.escape(f"none: {reason}" if reason else "none")]
    return f'<h3 id="{html.escape(it.full)}"><code>{html.escape(it.full)}</code></h3><p>{html.escape(it.sentence)}</p>' + rows([
        ("code", [link(it.path, it.line)]),
        ("clauses", clauses),
        ("definitions", [link(cited.module.path, name=cited.name) for cited in sources.cited_by(it)]),
        ("calls", [f"{html.escape(other.name)} {link(other.path, other.line)}" for other in sources.called_by(it)]),
        ("proof", [link(proof) for proof in proofs] or ["found by the prover"]),
        ("tests", [link(test.path, test.line, test.full) for test in sources.tests_of(it)]),
        ("planted bugs", edits),
    ])


def definition_part(sources, it):
    """Returns the part of a page on a definition."""
    by = [f'<a href="{function.crate}.html#{html.escape(function.full)}"><code>{html.escape(function.full)}</code></a>' for function in sources.promisers.get(it, [])[:12]]
    shown = html.escape(sentence(it.sentence)) if it.sentence else ""
    return f"<h3><code>{html.escape(it.name)}</code></h3><p>{shown}</p>" + rows([("defined", [link(it.module.path, it.line)]), ("promised by", by)])


def page(sources, crate):
    """Returns a crate's page."""
    parts = [f"<h1>{crate}</h1>", f"<p>{link(f'crates/{crate}/README.md', name='its README')}</p>"]
    if exists(f"crates/{crate}/specs/Lib.antt"):
        parts.append("<h2>Definitions</h2>")
        for module in in_order(sources.specs, crate):
            parts += [definition_part(sources, it) for it in module.definitions.values() if it in sources.promisers]
    parts.append("<h2>Functions</h2>")
    parts += [function_part(sources, it) for it in sources.functions if it.crate == crate and sources.is_open(it)]
    return shell(crate, "".join(parts))


def shell(title, body):
    """Returns a whole page."""
    return f"<!doctype html><meta charset=utf-8><title>{html.escape(title)}</title><style>{STYLE}</style>{body}\n"


def write_map(sources, folder):
    """Writes the pages into a folder below the repository's top. Returns what was written."""
    os.makedirs(f"{ROOT}/{folder}", exist_ok=True)
    for crate in sources.crates:
        with open(f"{ROOT}/{folder}/{crate}.html", "w", encoding="utf-8") as it:
            it.write(page(sources, crate))
    items = "".join(f'<li><a href="{crate}.html">{crate}</a></li>' for crate in sources.crates)
    with open(f"{ROOT}/{folder}/index.html", "w", encoding="utf-8") as it:
        it.write(shell("upc: the map", f"<h1>The map</h1><p>What is promised, crate by crate.</p><ul>{items}</ul>"))
    return f"{folder}/index.html and {len(sources.crates)} pages"
