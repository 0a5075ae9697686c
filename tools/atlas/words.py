"""Words, as questions and texts are compared by them: in small letters, names taken apart, without endings."""
import functools
import re

from .files import text_of
from .parts import OTHERS, parts_of

# Words that any question may have, whatever it is about.
IDLE = frozenset(
    "a able about across actually after again against almost already also am an and another anybody anyone anything anywhere are arent around as at available be been before behave behaves being between big bigger both by can cannot cant code could defined described did difference differences differ do documented does doesnt done dont during "
    "each else ever everybody everyone everything exactly explained for from get gets give gives giving going good had happen happened happens has have here how i if implemented in instead into is isnt it its itself just kind "
    "kinds know like made makes maybe many matter matters may me mean means might much must my myself of often on one only or our per please possible possibly provide provided provides rather really said say says see shall should so some somebody someone something stated still support supported supports "
    "struct such tell tells than that the their them then there these they thing things this those through to too toward towards treat treated treats two upon us use used uses using very via want wants was way ways well "
    "we were what when where whether which while who whose why will with work works would written yet you your".split()
)
# The least of them: a phrase may be asked without them.
SMALL = frozenset("a an the to".split())
# What a phrase asks for, where its words alone would ask for something else.
PHRASES = {"how many": "number of", "find out": "know"}
PHRASE = re.compile(rf"\b(?:{'|'.join(PHRASES)})\b", re.I)
# A place in a file of the one who asks tells nothing.
PLACE = re.compile(r"\b(line|column|record|instruction) \d+\b", re.I)
# Endings, the longest first, and what has to be left of a word without them.
ENDINGS = re.compile(r"(?<=\w{4})(?:ations?|ments?|ness)$|(?<=\w{3}[^e]at)(?:ed|ing|es?|ors?)$|(?<=\w{3})(?:ings?|ions?|ers?|ors?|(?<!ce)ed|ly)$")
# Forms of a verb that no ending makes.
IRREGULAR = dict(it.split(":") for it in (
    "began:begin begun:begin broken:break built:build chose:choose chosen:choose drawn:draw found:find held:hold kept:keep lent:lend "
    "lost:lose meant:mean ran:run sent:send shown:show spelt:spell thrown:throw told:tell wrote:write written:write"
).split())
# A name as code spells it, of several words, or an option.
NAME = re.compile(r"(?<![\w-])--[a-z][\w-]*|\b(?:[A-Za-z0-9]+_\w*[A-Za-z0-9]|[A-Za-z]?[a-z0-9]+(?:[A-Z][a-z0-9]+)+)\b")
# What is left of `isolated`, whose noun is `isolation`.
LEFT = re.compile(r"(?<=\w{3}[^e])at$")


def words_of(text):
    """Returns the words of a text. `VBR.1` is `vbr1`, and a name of several words is these words."""
    text = re.sub(r"\b[cC]\+\+", " cplusplus ", text)
    # VCIs are several of a VCI.
    text = re.sub(r"\b([A-Z]{2,})s\b", r"\1", text)
    text = re.sub(r"(?<=[a-z0-9])(?=[A-Z])|(?<=[A-Z])(?=[A-Z][a-z])", " ", re.sub(r"(?<=\w)\.(?:rt|antt|md)\b", " ", text))
    return re.findall(r"[a-z0-9]+", re.sub(r"(?<=[a-z])\.(?=\d)|(?<=[a-z])'(?=[a-z])", "", text.lower()))


@functools.lru_cache(maxsize=None)
def stem(word):
    """Returns a word without its ending, so that `released` and `releases` are one word."""
    word = IRREGULAR.get(word, word)
    if len(word) < 4 or word.isdigit():
        return word
    word = re.sub(r"(?<=\w\w)ies$", "y", word)
    word = re.sub(r"(?<=[^su])s$|(?<=s)es$", "", word)
    short = ENDINGS.sub("", word)
    short = LEFT.sub("", short) if short != word or word.endswith("ate") else short
    if short != word and len(short) > 3 and short[-1] == short[-2] and short[-1] not in "sl":
        short = short[:-1]
    return re.sub(r"e$", "", re.sub(r"y$", "i", short))


@functools.lru_cache(maxsize=None)
def names_in(text):
    """Returns the names of code in a text, each as one word: `TooFast` is `toofast`, and `--every` stays as it is."""
    return tuple(it.replace("_", "").lower() for it in NAME.findall(text))


def plain(text):
    """Returns a text with a word that tells something in place of each phrase."""
    return PHRASE.sub(lambda it: PHRASES[it[0].lower()], text)


@functools.lru_cache(maxsize=None)
def stems_of(text):
    """Returns the words of a text without their endings."""
    return tuple(stem(it) for it in words_of(plain(text)))


@functools.lru_cache(maxsize=None)
def others():
    """Returns what docs/GLOSSARY.md has for words of other texts: for the stems of each, and the idle words that a question has to have with
    them, the stems of those that are used here. `link with` is no other word for a link."""
    found = {}
    for part in parts_of("docs/GLOSSARY.md", text_of("docs/GLOSSARY.md")):
        for it in part.name.split(",") if part.heading == OTHERS and part.name else []:
            own, words = searched_stems(it), words_of(it)
            beside = frozenset(words) & IDLE - SMALL if len(own) < len(words) else frozenset()
            found.setdefault((own, beside), []).extend(searched_stems(ours) for ours in part.text.split(","))
    return found


def pairs_asked():
    """Returns the pairs of stems that a part of a question may have."""
    return {pair for (own, _), ours in others().items() for stems in [own, *ours] for pair in zip(stems, stems[1:])}


def searched_stems(text):
    """Returns the stems by which a text is searched: those of its words but the idle ones, or of all if each is idle."""
    words = words_of(text)
    return tuple(stem(it) for it in [it for it in words if it not in IDLE] or words)


def meanings_of(words):
    """Returns for each part of a question what it may be called: lists of stems, its own first. The words of a part may be apart in it,
    and in any order."""
    asked = PLACE.sub(r"\1", plain(" ".join(words)))
    left, said = list(dict.fromkeys(searched_stems(asked))), set(words_of(asked))
    known, found, stems = {}, [], set(left)
    for (own, beside), ours in others().items():
        if beside <= said and stems.issuperset(own):
            known.setdefault(own, {}).update(dict.fromkeys(ours))
    for own in sorted(known, key=lambda it: (-len(it), it)):
        if len(own) > 1 and all(it in left for it in own):
            found.append((min(left.index(it) for it in own), own))
            left = [None if it in own else it for it in left]
    found += [(at, (it,)) for at, it in enumerate(left) if it]
    return [[own, *known.get(own, [])] for _, own in sorted(found)]
