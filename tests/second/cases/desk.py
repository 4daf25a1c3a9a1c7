"""A random case for the desk: a folder of files, and commands with the second program's answers."""

from desk import Desk, is_trial
from protocol import IMAGE_MOST

from .cards import random_plan
from .mix import random_case, raw_bytes
from .script import Script

CARD = "card"
LONG_LINE = "x" * 300000
LINES = ("save", "save ", "save a b", "save missing/card", "save taken", "touched", "touched ", "touched missing", "touched long",
         "touched other", "touched card", "touched card other", "image 4", "at 0 00", "keep", "crc 00", "value 1 2", "decode-head 0000",
         "value 22 4 1", "decode-ticket 21 1 -", "set 22 1", "set 22 4 1 1", "encode-ticket 278 2", "record 1 21 1", "record 1 22 1")


class DeskScript(Script):
    """Commands for a desk on a card file; `keep` becomes a `save`, and what only a test program knows is left out."""

    def __init__(self, groups, files):
        super().__init__(groups)
        self.open(files)

    def open(self, files):
        """The desk is opened on the card of this folder."""
        self.before = dict(files)
        self.talk = Desk(files, CARD)

    def load(self, image, fresh=False):
        self.cards += 1
        self.open(dict(self.before, **{CARD: bytes(image)}))

    def say(self, *parts, expect=None):
        text = " ".join(str(part) for part in parts)
        word = text.split(" ")[0]
        if word in ("keep", "touched"):
            return super().say(text.replace(word, "save kept" if word == "keep" else "touched kept", 1), expect=expect)
        return None if is_trial(word) else super().say(text, expect=expect)


def desk_case(groups, dice):
    """One case, with some lines about files at its end."""
    other = random_plan(dice, small=True).image() if dice.chance(50) else raw_bytes(dice)
    files = {CARD: random_plan(dice, small=True).image(), "other": other, "taken.new": b""}
    if dice.chance(5):
        files["long"] = bytes(IMAGE_MOST + 1)
    script = DeskScript(groups, files)
    random_case(script, dice)
    for _ in range(dice.below(4)):
        Script.say(script, dice.pick(LINES))
    if dice.chance(2):
        script.say(LONG_LINE, expect="?")
    script.say("save after", expect="saved")
    return script
