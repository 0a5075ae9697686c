"""An index of all that answers questions: which words each answer has, how rare they are, and how well they fit a question."""
import math
import re
from array import array

from .asked import Asked
from .outlines import scripts, sources_and_modules
from .parts import HEADER, all_parts, all_sections, cases, types_of
from .words import IDLE, NAME as SPELLED, meanings_of, names_in, pairs_asked, searched_stems, stems_of

# What a word counts in each field of an answer. REST is the text around the sentence that answers.
NAME, SENTENCE, HEADING, TEXT, REST, CONTEXT = 3.0, 2.0, 1.5, 1.0, 0.6, 0.5
# How much a word of docs/GLOSSARY.md counts in place of the one that was asked for.
OTHER = 0.85
# How well an answer has to fit, as a part of what fits best.
WORTH = 0.25
# How much words that belong together count where an answer has them apart.
APART = 0.5
# From how often on another occurrence of a word adds little; and how much longer texts count less.
OFTEN, LONG = 1.2, 0.5
# How much a page counts: those that say what the programs do before those that say how and why. A question how something is done
# is about the pages for those who do it, a question why about those with reasons, and a question what something is about its names.
RULING = ("docs/FORMATS.md", "docs/RULES.md", "docs/CONTRACTS.md", "docs/LAB.md")
DOING = ("docs/CONTRIBUTING.md", "README.md")
REASONING = ("docs/ARCHITECTURE.md", "docs/DECISIONS.md")
NAMING = ("docs/GLOSSARY.md",)
# Files as wholes count little, unless code is asked for; of the scripts those that users call count most.
OF_SCRIPTS = {"bin": 0.65, "tests": 0.35, "bench": 0.35, "reference": 0.35}
RULES, CALLS, OTHERS, OF_CRATES, OF_FILES, ASKED, SECTION = 1.3, 1.5, 1.1, 0.6, 0.42, 1.8, 0.9
# Long pages with reasons have every word, so they count less.
LONG_PAGES = {"docs/DECISIONS.md": 0.8}
# Functions, types and definitions count less than pages, unless a question is about code or proofs.
OF_FUNCTIONS, OF_DEFINITIONS = 0.7, 0.3
HOW = re.compile(r"(how|where|what|which \w+) (do|can|should|must) (i|we|you)\b|how to\b|(add|adding|build|building|install|installing|run|running|change|changing|contribute)\b")
WHY = re.compile(r"why\b|reasons?\b")
WHAT = re.compile(r"what (is|are) (a|an|the)? ?\w+$|what does \w+ mean$|(definition|meaning) of\b")
# How much words count that earlier questions taught, and a place of an earlier question that is the same; and how much less each
# further place of it counts.
LEARNED, ASKED_BEFORE, ANOTHER_PLACE = 0.3, 1.2, 0.7
# How much being more alike counts, and how much the sections count in which the places of earlier questions are.
ALIKE, NEAR = 1.7, 0.5
# How much more an answer of these kinds, or a section, counts whose name is what was asked for.
TITLE, TITLED = 2.0, ("function", "law", "source", "module", "script")
# What a whole question is about first, by its form: where something is done about code, one of proofs about definitions and laws too,
# and any other about pages, and then about the header. The word for what is asked for, as in "which function", is no subject.
ASKS = re.compile(r"(how|what|where|when|which|why|who|whose|do|does|did|is|are|am|can|could|may|must|should|will|would|if|has|have)\b")
CODE = "(functions?|methods?|code|files?|modules?|sources?|types?|structs?|enums?|constants?|scripts?)"
WHERE = re.compile(rf"(where (is|are|does|do|was)|(in )?(which|what) ({CODE}|crates?))\b(?! (i|we|you)\b)")
PROOFS = re.compile(r"\b(laws?|lemmas?|theorems?|definitions?|defined|formal|formally|stated|premises?|specifications?|invariants?)\b")
KIND = re.compile(rf"(which|what) ({CODE}|laws?|definitions?) ")
OF_ANY = {"page": 1.4, "declaration": 1.2}
OF_CODE = {"function": 1.8, "type": 1.8, "source": 2.5, "script": 2.5, "module": 1.5, "definition": 2.0}
# A question that names code, as in "which function", or asks where something is done, is about code before pages.
OF_NAMED_CODE = OF_CODE | {"page": 0.25, "declaration": 0.5}
DONE = re.compile(rf"where (is|are|do|does) .* (built|checked|chosen|compared|computed|counted|decided|defined|done|found|implemented|judged|kept|made|parsed|printed|read|written)$|(code|{CODE}) that ")
OF_PROOFS = {"page": 1.2, "definition": 2.5, "law": 1.5, "module": 2.5, "source": 1.2}
# How much an answer counts for each better one of its section, or of its name.
REPEATED = 0.8
# What a question how something is done has besides its subject.
ANOTHER = frozenset("add adding another change create extra go goes new one put write".split())
STRING = re.compile(r'"((?:[^"\\\n]|\\.)*)"')
COMMENT = re.compile(r"^\s*//+ ?(.*)$", re.M)
# Tests come after what they test, and bugs last.
TESTS, BUGS = 1, 2
RANKS = {"test": TESTS, "case": TESTS, "patch": BUGS, "planted bug": BUGS}


class Answer:
    """What may answer a question: its kind, what it is, how much its kind counts, and its words with their weights. An answer that was
    kept has neither: its words are in the index, and what it is was written down under its number (keeping.py)."""

    __slots__ = ("kind", "it", "name", "path", "topic", "section", "number", "counts", "rank", "title", "length", "words", "pairs", "score")

    def __init__(self, kind, it, counts, fields):
        self.kind, self.it, self.counts, self.rank, self.number, self.score = kind, it, counts, RANKS.get(kind, 0), 0, 0
        self.name, self.path = getattr(it, "name", ""), it.module.path if kind == "definition" and it else getattr(it, "path", "")
        # What others may be about too: a section of a page but a row of a table, and otherwise what has this name in code.
        self.topic = f"{self.path} {it.name or it.heading}" if kind in ("page", "declaration") else self.name
        # The section of a page, or the file, in which it is.
        self.section = f"{self.path} {it.heading or it.name}" if kind == "page" else self.topic if kind == "declaration" else self.path
        self.words, self.pairs, self.length = {}, set(), 0
        for weight, text in fields:
            stems = stems_of(text)
            for stem in stems:
                self.words[stem] = self.words.get(stem, 0) + weight
                self.length += weight
            for name in names_in(text):
                self.words[name] = self.words.get(name, 0) + weight
            said = [it for it in stems if it not in IDLE]
            self.pairs.update(zip(stems, stems[1:]))
            self.pairs.update(zip(said, said[1:]))
        self.title = searched_stems(it.name) if kind in TITLED or kind == "page" and not it.heading else ()

    @property
    def is_code(self):
        """Returns whether programs are made of it. A law is a function without a body."""
        return self.kind in ("type", "function")

    @property
    def asked_as(self):
        """Returns the kind that counts for the form of a question: nothing is done in an example."""
        return "case" if self.path.startswith("examples/") else self.kind

    @property
    def kept(self):
        """Returns what is kept of it."""
        return self.kind, self.name, self.path, self.topic, self.section, self.number, self.counts, self.rank, self.title, self.length

    @classmethod
    def of_kept(cls, kept):
        """Returns an answer that was kept."""
        self = cls.__new__(cls)
        self.kind, self.name, self.path, self.topic, self.section, self.number, self.counts, self.rank, self.title, self.length = kept
        self.it, self.score = None, 0
        return self


class Places:
    """For each stem the places of the answers that have it, and how much it counts there, in octets."""

    def __init__(self, packed):
        self.packed = packed

    @classmethod
    def of(cls, found):
        """Packs lists of places and weights."""
        return cls({stem: (array("I", places).tobytes(), array("d", weights).tobytes()) for stem, (places, weights) in found.items()})

    def of_stem(self, stem):
        """Returns the places and the weights of a stem."""
        places, weights = array("I"), array("d")
        for it, packed in zip((places, weights), self.packed.get(stem, ())):
            it.frombytes(packed)
        return places, weights

    def number_of(self, stem):
        """Returns how many places have a stem."""
        return len(self.packed[stem][0]) // array("I").itemsize if stem in self.packed else 0


class Index:
    """All answers, by their words, and the places of those that have two words together which a question may have."""

    def __init__(self, answers, places, together):
        self.answers, self.places, self.together = answers, places, together
        self.usual = sum(it.length for it in answers) / len(answers)
        self.asked = Asked([], {}, {})

    @classmethod
    def of(cls, answers):
        """Makes the index of these answers, which knows no question yet. The sentences of one part have its number."""
        numbers, having, together, asked = {}, {}, {}, pairs_asked()
        for place, answer in enumerate(answers):
            answer.number = numbers.setdefault(id(answer.it), len(numbers))
            for stem, weight in answer.words.items():
                places, weights = having.setdefault(stem, ([], []))
                places.append(place)
                weights.append(weight)
            for pair in answer.pairs & asked:
                together.setdefault(pair, []).append(place)
        return cls(answers, Places.of(having), together)

    def of_code(self):
        """Returns the index of the functions and types that the programs are made of. Its answers have the numbers of this one's."""
        answers = [it for it in self.answers if it.is_code]
        numbers = [it.number for it in answers]
        found = Index.of(answers)
        for it, number in zip(answers, numbers):
            it.number = number
        return found

    def learn(self, asked):
        """Learns of questions that were asked, each with its answers. Those that this index hasn't don't count. Returns the index."""
        mine = {id(it) for it in self.answers}
        asked = [(words, [it for it in found if id(it) in mine]) for words, found in asked]
        self.asked = Asked.of(self, [(words, found) for words, found in asked if found])
        return self

    @property
    def kept(self):
        """Returns what is kept of it."""
        return [it.kept for it in self.answers], self.places.packed, self.together, self.asked.kept

    @classmethod
    def of_kept(cls, kept):
        """Returns an index that was kept."""
        answers, packed, together, asked = kept
        self = cls([Answer.of_kept(it) for it in answers], Places(packed), together)
        self.asked = Asked(*asked)
        return self

    def rarity(self, stem):
        """Returns how rare a word is: the fewer answers have it, the greater the number."""
        return math.log(1 + len(self.answers) / (1 + self.places.number_of(stem)))

    def fit(self, stems):
        """Returns how well some words fit each answer that has all of them, by its place."""
        found = None
        for stem in stems:
            rarity, before, found = self.rarity(stem), found, {}
            for place, weight in zip(*self.places.of_stem(stem)):
                if before is None or place in before:
                    often = weight / (1 - LONG + LONG * self.answers[place].length / self.usual)
                    found[place] = (before[place] if before else 0) + rarity * often * (OFTEN + 1) / (often + OFTEN)
        near = [set(self.together.get(pair, ())) for pair in zip(stems, stems[1:])]
        return {place: fit / len(stems) ** 0.5 * (1 if all(place in it for it in near) else APART) for place, fit in found.items()}

    def fits(self, meanings):
        """Returns the places of the answers that some of these words fit, each with how well."""
        found = {}
        for k, stems in enumerate(meanings):
            for place, fit in self.fit(stems).items():
                found[place] = max(found.get(place, 0), fit * (OTHER if k else 1))
        return found

    def meanings(self, words):
        """Returns what each part of a question may be called. A name of code that some answer has is one part."""
        asked, found = " ".join(words), []
        for name in SPELLED.findall(asked):
            (whole,) = names_in(name)
            if self.places.number_of(whole):
                found.append([(whole,), searched_stems(name)])
                asked = asked.replace(name, " ")
        return found + (meanings_of(asked.split()) if asked.strip() else [])

    def learned_fits(self, meanings):
        """Returns for each part of a question the places of the answers that have words which earlier questions with its words taught, each
        with how well."""
        known, found = {}, []
        for own, *_ in meanings:
            fits = {}
            for weight, stem in [it for word in own for it in self.asked.learned.get(word, ())]:
                if stem not in known:
                    known[stem] = self.fit((stem,))
                for place, fit in known[stem].items():
                    fits[place] = fits.get(place, 0) + LEARNED * weight * fit
            found.append(fits)
        return found

    def scored(self, meanings, kinds, favoured):
        """Returns for each part of a page, and for all else, the answer that fits a question best, by its number, with its score."""
        fits, learned, best = [self.fits(it) for it in meanings], self.learned_fits(meanings), {}
        rarities = [math.log(1 + len(self.answers) / (1 + len(it))) for it in fits]
        whole, sums, covered = sum(rarities), {}, {}
        for rarity, own, taught in zip(rarities, fits, learned):
            for place, fit in own.items():
                sums[place] = sums.get(place, 0) + fit
                covered[place] = covered.get(place, 0) + rarity
            for place, fit in taught.items():
                sums[place] = sums.get(place, 0) + fit
                # What was learned covers a part of a question as far as it fits.
                if place not in own:
                    covered[place] = covered.get(place, 0) + min(rarity, fit)
        for place, fit in sums.items():
            answer = self.answers[place]
            answer.score = fit * covered[place] / whole * answer.counts * kinds.get(answer.asked_as, 1)
            answer.score *= 1 + TITLE * titled(answer.title, meanings) if answer.title else 1
            answer.score *= ASKED if answer.path in favoured else 1
            if answer.number not in best or best[answer.number].score < answer.score:
                best[answer.number] = answer
        return best

    def add_asked_before(self, best, meanings):
        """Adds to the scores of answers at the places of known questions what these are like the new one. The places of one question count
        one less than the other, so that several questions have a place among the first answers."""
        asked = [(likeness, [self.answers[place] for place in places]) for likeness, places in self.asked.bonuses(self, meanings)]
        favour_sections(best, asked)
        top, bonuses = max((it.score for it in best.values()), default=1), {}
        for likeness, found in asked:
            bonus = ASKED_BEFORE * top * likeness**ALIKE
            for it in sorted(found, key=lambda it: -best[it.number].score if it.number in best else 0):
                bonuses[it.number] = (bonuses.get(it.number, (0, it))[0] + bonus, it)
                bonus *= ANOTHER_PLACE
        for number, (bonus, answer) in bonuses.items():
            if number not in best:
                answer.score, best[number] = 0, answer
            best[number].score += bonus

    def search(self, words):
        """Returns the answers to a question, the best first: each by its sentence that fits best."""
        asked = " ".join(words).lower().rstrip("?. ")
        favoured = favoured_by(asked)
        meanings = self.meanings(subject_of(words))
        best = self.scored(meanings, kinds_asked(asked), favoured)
        self.add_asked_before(best, meanings)
        topics = {}
        for it in sorted(best.values(), key=lambda it: (-it.score, it.number)):
            it.score *= REPEATED ** topics.get(it.topic, 0)
            topics[it.topic] = topics.get(it.topic, 0) + 1
        least = WORTH * max((it.score for it in best.values()), default=0)
        # A name copied from code means what has that name.
        names = {it for it in words if is_identifier(it, words)}
        named = {it.number: it for it in self.answers if it.name in names}
        found = {at: it for at, it in best.items() if it.score >= least} | {at: best.get(at, it) for at, it in named.items()}
        return sorted(found.values(), key=lambda it: (it.rank, it.number not in named, -it.score, it.number))


def favour_sections(best, asked):
    """Makes answers count more in the sections where those of questions are that are like the new one."""
    sections = {}
    for likeness, found in asked:
        for it in {it.section for it in found}:
            sections[it] = sections.get(it, 0) + likeness**ALIKE
    most = max(sections.values(), default=1)
    for it in best.values():
        it.score *= 1 + NEAR * sections.get(it.section, 0) / most


def favoured_by(asked):
    """Returns the pages that a question of this form is about most often."""
    return DOING if HOW.match(asked) else REASONING if WHY.match(asked) else NAMING if WHAT.match(asked) else ()


def subject_of(words):
    """Returns the words of a question that are about its subject."""
    asked = " ".join(words).lower()
    if HOW.match(asked):
        words = [it for it in words if it.lower() not in ANOTHER] or words
    return words[2:] if KIND.match(asked) and words[2:] else words


def titled(title, meanings):
    """Returns how far a title is what was asked for: which part of it a question has, times which part of a question it has."""
    if not title:
        return 0
    met, parts = set(), 0
    for meaning in meanings:
        stems = next((it for it in meaning if all(stem in title for stem in it)), ())
        met.update(stems)
        parts += bool(stems)
    return len(met) / len(set(title)) * parts / len(meanings)


def kinds_asked(asked):
    """Returns how much more each kind of answer counts for a question of this form."""
    if PROOFS.search(asked):
        return OF_PROOFS
    if (KIND.match(asked) or DONE.match(asked)) and not HOW.match(asked):
        return OF_NAMED_CODE
    return OF_CODE if WHERE.match(asked) and not HOW.match(asked) else OF_ANY if ASKS.match(asked) else {}


def is_identifier(name, words):
    """Returns whether one of these words is this name, as code spells names: of several words, or asked for alone."""
    return name in words and (len(words) == 1 or "_" in name or bool(re.search("[a-z][A-Z]", name)))


def counts_of(path):
    """Returns how much a page or the header counts."""
    others = OF_CRATES if path.startswith(("bench/", "crates/")) else LONG_PAGES.get(path, OTHERS)
    return RULES if path in RULING else CALLS if path == HEADER else others


def answers(sources):
    """Yields all that may answer: functions with their clauses, definitions, parts of pages, tests and planted bugs."""
    for it in sources.functions:
        strings, comments = " ".join(STRING.findall(it.body)), " ".join(COMMENT.findall(it.body))
        clauses = " ".join(f"{clause.name} {clause.sentence}" for clause in it.clauses)
        is_test = it.is_test or it.module.startswith("tests")
        kind = "test" if is_test else "law" if it.is_law else "function"
        counts = 0.8 if is_test else (0.9 if sources.is_open(it) else 0.6) * OF_FUNCTIONS
        yield Answer(kind, it, counts, [(NAME, it.name), (CONTEXT, it.full), (SENTENCE, it.sentence), (TEXT, clauses), (TEXT, strings), (REST, comments)])
    for module in sources.specs.modules.values():
        for it in module.definitions.values():
            context = f"{module.crate} {module.inside}"
            counts = (0.6 if module.helps() else 1.0) * OF_DEFINITIONS
            yield Answer("definition", it, counts, [(NAME, it.name), (SENTENCE, it.sentence), (TEXT, it.text), (CONTEXT, context)])
    for crate in sources.crates:
        for it in types_of(crate):
            if "/src/tests" not in it.path:
                yield Answer("type", it, 0.9 * OF_FUNCTIONS, [(NAME, it.name), (SENTENCE, it.text), (TEXT, it.about), (CONTEXT, crate)])
    for kind, it in (*sources_and_modules(), *(("script", it) for it in scripts())):
        yield Answer(kind, it, OF_SCRIPTS.get(it.heading, OF_FILES), [(NAME, it.name), (SENTENCE, it.text), (CONTEXT, f"{it.path} {it.heading}"), (REST, it.about)])
    for it in all_sections():
        yield Answer("page", it, counts_of(it.path) * SECTION, [(NAME, it.name), (CONTEXT, it.path), (REST, it.text)])
    for it in all_parts():
        counts = counts_of(it.path)
        for sentence in it.sentences:
            yield Answer("declaration" if it.path == HEADER else "page", it, counts, [(NAME, it.name), (SENTENCE, sentence), (HEADING, it.heading), (CONTEXT, it.path), (REST, f"{it.about} {it.text}")])
    for it in cases():
        yield Answer("case", it, 0.8, [(NAME, it.name), (SENTENCE, it.text)])
    for it in sources.patches:
        yield Answer("patch", it, 0.8, [(NAME, it.name), (SENTENCE, it.sentence)])
    for it in sources.edits:
        yield Answer("planted bug", it, 0.8, [(NAME, it.name), (CONTEXT, it.function)])
