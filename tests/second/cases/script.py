"""A list of commands, answered by the model as it grows."""

from protocol import GROUPS, Talk

GROUP_OF = {word: group for group, words in GROUPS.items() for word in words}
RUN_MOST = 512
GAP = 6
BLOCK = 32
PATCH_MOST = 200


class Script:
    """Commands with the model's answers; groups not wanted are left out."""

    def __init__(self, groups=None):
        self.groups = set(GROUPS if groups is None else groups)
        self.talk = Talk()
        self.lines = []
        self.wrong = []
        self.cards = 0

    def has(self, group):
        """Whether commands of this group are wanted."""
        return group in self.groups

    def say(self, *parts, expect=None):
        """Give one command; gives its answer's first line, or None if it is left out."""
        text = " ".join(str(part) for part in parts)
        group = GROUP_OF.get(text.split(" ")[0])
        if group is not None and group not in self.groups:
            return None
        answers = self.talk.answer(text)
        self.lines.append((text, answers))
        if expect is not None and answers != ([expect] if isinstance(expect, str) else expect):
            self.wrong.append((text, answers, expect))
        return answers[0]

    def number(self, *parts, expect=None):
        """Give one command and expect a number and an entry at the answer's front."""
        answer = self.say(*parts)
        if answer is not None and expect is not None:
            given = answer.split(" ")[:2]
            if given != [str(part) for part in expect]:
                self.wrong.append((" ".join(str(part) for part in parts), given, tuple(expect)))
        return answer

    def load(self, image, fresh=False):
        """Make this the image, unless fresh by the changed bytes alone where that is shorter."""
        self.cards += 1
        patch = None
        if len(image) == len(self.talk.image) and not fresh:
            patch = commands(bytes(self.talk.image), image)
        if patch is None or sum(map(len, patch)) > PATCH_MOST:
            whole = commands(bytes(len(image)), image)
            if patch is None or sum(map(len, whole)) < sum(map(len, patch)):
                self.say("image", len(image), expect=str(len(image)))
                patch = whole
        for text in patch:
            self.say(text, expect="ok")


def commands(old, new):
    """The `at` commands that turn the old bytes into the new ones."""
    runs = []
    for i in differing(old, new):
        if runs and i - runs[-1][1] <= GAP and i - runs[-1][0] < RUN_MOST:
            runs[-1][1] = i
        else:
            runs.append([i, i])
    return ["at %d %s" % (first, new[first:last + 1].hex()) for first, last in runs]


def differing(old, new):
    """The places where two images of one length differ."""
    for start in range(0, len(new), BLOCK):
        if old[start:start + BLOCK] != new[start:start + BLOCK]:
            for i in range(start, min(start + BLOCK, len(new))):
                if old[i] != new[i]:
                    yield i
