"""Several parts of one file are one answer, so that three answers are three places: the parts of a page or of the header, and what is in
a source."""

# How many parts of a file are shown, and how well each has to fit, as a part of what fits best there.
MOST_PARTS, PART_WORTH = 4, 0.4


class Group:
    """The answers in one file, the best first."""

    def __init__(self, first):
        self.answers, self.rank = [first], first.rank

    @property
    def shown(self):
        """Returns the parts that are shown."""
        least = PART_WORTH * self.answers[0].score
        return [it for k, it in enumerate(self.answers) if not k or it.score >= least][:MOST_PARTS]


def grouped(found):
    """Returns the groups of answers that come in order, in the order of their first ones."""
    groups = {}
    for it in found:
        key = it.rank, it.path
        if key in groups:
            groups[key].answers.append(it)
        else:
            groups[key] = Group(it)
    return list(groups.values())
