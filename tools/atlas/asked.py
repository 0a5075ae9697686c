"""Questions that were asked before, and what they teach: which places answer a question that is like one of them, and which words the
places have that answered questions with a word. A row of questions is what was typed after bin/find, and then the places that answer
it: a file, and the name of what is there or some words of a part of a page."""
import functools

from .files import text_of

# The questions that the index knows.
KNOWN = "tools/atlas/questions"
# How alike parts of two questions are that have no words in common, but a name of docs/GLOSSARY.md.
NAMED_ALIKE = 0.6
# How many of the places of a question teach words, how many words each word of a question teaches, and how many occasions it takes
# until they count half.
MOST_PLACES, MOST_WORDS, OCCASIONS = 6, 6, 2
# From which weight on a word of a place counts whole, and what is worth learning.
WHOLE, LEAST = 1.5, 0.02
# How many questions are compared with the places of a new one, and how alike they are at least.
MOST_ALIKE, ALIKE = 12, 0.15


def questions(path):
    """Yields the questions of a file, each with its places, and whether it was asked of code alone."""
    for line in text_of(path).split("\n"):
        if line.strip() and not line.startswith("#"):
            question, *places = (piece.strip() for piece in line.split("|"))
            words = question.split()
            is_code = words[0] == "--code"
            yield words[is_code:], [tuple(place.split(": ", 1)) for place in places], is_code


def by_file(answers):
    """Returns the answers of each file, without tests and bugs."""
    found = {}
    for answer in answers:
        if not answer.rank:
            found.setdefault(answer.path, []).append(answer)
    return found


def answers_at(files, place):
    """Returns the answers at a place: what has this name in the file, or else the parts with these words."""
    path, words = place
    parts = files.get(path, [])
    named = [it for it in parts if it.it.name == words]
    return named or [it for it in parts if it.kind in ("page", "declaration") and words in f"{it.it.name} {it.it.text}"]


def known_questions(answers):
    """Returns the known questions, each with the answers at its places."""
    files = by_file(answers)
    return [(words, [it for place in places for it in answers_at(files, place)]) for words, places, _ in questions(KNOWN)]


class Asked:
    """What an index learned of the questions that were asked: for each the weight of its words and the places of its answers; for each
    name of a part of a question the questions with such a part, whether these are its own words, and its weight; and for each word those
    that the places of its questions have, each with how much it counts."""

    def __init__(self, known, having, learned):
        self.known, self.having, self.learned = known, having, learned

    @property
    def kept(self):
        """Returns what is kept of it."""
        return self.known, self.having, self.learned

    @classmethod
    def of(cls, index, asked):
        """Learns of questions with their answers. Of those of one part the first stands for all."""
        first, known, having = {}, [], {}
        for place, answer in enumerate(index.answers):
            first.setdefault(answer.number, place)
        asked = [(index.meanings(words), found) for words, found in asked]
        for meanings, found in asked:
            places = list(dict.fromkeys(first[it.number] for it in found))
            for meaning in meanings:
                weight = weight_of(index, [meaning])
                for k, stems in enumerate(meaning):
                    having.setdefault(stems, []).append((len(known), k == 0, weight))
            known.append((weight_of(index, meanings), places))
        return cls(known, having, learned_words(index, asked))

    def bonuses(self, index, meanings):
        """Yields for each known question that is like a new one how much alike they are, and the places of its answers."""
        alike = {}
        for meaning in meanings:
            met, weight = {}, weight_of(index, [meaning])
            for k, stems in enumerate(meaning):
                for question, is_own, theirs in self.having.get(stems, ()):
                    match = min(weight, theirs) * (1 if is_own and k == 0 else NAMED_ALIKE)
                    met[question] = max(met.get(question, 0), match)
            for question, match in met.items():
                alike[question] = alike.get(question, 0) + match
        whole = weight_of(index, meanings)
        for question, shared in sorted(alike.items(), key=lambda it: (-it[1] / self.known[it[0]][0] ** 0.5, it[0]))[:MOST_ALIKE]:
            weight, places = self.known[question]
            likeness = shared / (whole * weight) ** 0.5
            if likeness >= ALIKE:
                yield likeness, places


def weight_of(index, meanings):
    """Returns how much the parts of a question tell: the sum of how rare their words are."""
    return sum(sum(index.rarity(it) for it in meaning[0]) / len(meaning[0]) for meaning in meanings if meaning[0])


def learned_words(index, asked):
    """Returns for each word of a question the words that its places have more often than others, those first that tell most."""
    taught = [(meanings, list(dict.fromkeys(it.number for it in found))[:MOST_PLACES]) for meanings, found in asked]
    texts, times, met = texts_of(index, {number for _, numbers in taught for number in numbers}), {}, {}
    for meanings, numbers in taught:
        for own in {stem for meaning in meanings for stem in meaning[0]}:
            times[own], with_own = times.get(own, 0) + 1, met.setdefault(own, {})
            for number in numbers:
                for stem, weight in texts[number].items():
                    with_own[stem] = with_own.get(stem, 0) + weight / len(numbers)
    usual = functools.lru_cache(maxsize=None)(lambda stem: index.places.number_of(stem) / len(index.answers))
    rarity = functools.lru_cache(maxsize=None)(index.rarity)
    learned = {}
    for own, with_own in met.items():
        found = [((often - times[own] * usual(it)) / (times[own] + OCCASIONS), it) for it, often in with_own.items() if it != own]
        found = sorted(((weight, it) for weight, it in found if weight >= LEAST), key=lambda it: (-it[0] * rarity(it[1]), it[1]))
        learned[own] = found[:MOST_WORDS]
    return learned


def texts_of(index, numbers):
    """Returns for the parts with these numbers their words, each with how much it counts."""
    texts = {number: {} for number in numbers}
    for answer in index.answers:
        text = texts.get(answer.number)
        for stem, weight in answer.words.items() if text is not None else ():
            if stem.isalpha():
                text[stem] = max(text.get(stem, 0), min(1, weight / WHOLE))
    return texts
