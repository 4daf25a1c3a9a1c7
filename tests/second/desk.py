"""The desk's protocol: the line protocol on the image of a file, with `save FILE` and `touched FILE`."""

from model.touched import touched
from protocol import IMAGE_MOST, NotACommand, Talk, answered, exactly

# Commands that only a test program knows, beside those that decode.
TRIAL = ("image", "at", "keep", "value", "crc")


def is_trial(word):
    """Whether the desk does not know this command of the line protocol."""
    return word in TRIAL or word.startswith("decode-")


class Desk(Talk):
    """A desk on one file of a folder; the folder is a dictionary from names to bytes."""

    def __init__(self, files, name):
        super().__init__()
        self.files = files
        self.image = bytearray(files[name])

    def answer(self, text):
        return ["?"] if is_trial(text.split(" ")[0]) else super().answer(text)

    def say_save(self, words):
        """A new file is written beside the named one, where nothing may stand, and then put in its place."""
        name = file_name(words)
        if "/" in name or name + ".new" in self.files:
            return "not saved"
        self.files[name] = bytes(self.image)
        return "saved"

    def say_touched(self, words):
        """The image of the file is the one before."""
        before = self.files.get(file_name(words))
        if before is None or len(before) > IMAGE_MOST:
            return "not read"
        return answered(lambda: touched(before, self.image), [])


def file_name(words):
    """The one word that names a file."""
    name, = exactly(words, 1)
    if not name:
        raise NotACommand
    return name
