"""A refusal: its number in document 01 and the entry it names."""


class Refused(Exception):
    """Raised by a call before it alters any byte."""

    def __init__(self, number, entry=0):
        super().__init__("refused %d %d" % (number, entry))
        self.number = number
        self.entry = entry
