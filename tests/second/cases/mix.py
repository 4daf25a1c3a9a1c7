"""Random cases of every kind, for long comparisons."""

from model.fields import SHELL
from model.table import psi, table_length

from . import calls, faults
from .calls import record_line, words
from .cards import crowded_plan, full_plan, kinds_plan, random_plan, random_record
from .forms import BIG, FORMS, MOST_BYTES, MOST_VALUES, UNLISTED, most, name
from .values import LAYOUTS, mistyped, random_shell, random_values

NONSENSE = ("", " ", "?", "Check", "check 1", "check ", " check", "shell 1", "directory 0", "table 1", "entry",
            "entry 1 2", "entry x", "entry -1", "chain", "chain 18446744073709551616", "ticket", "ticket 1 65537",
            "ticket 1 1 1", "rest", "rest 1 65537", "buffer", "buffer 65537", "buffer -", "field 1 1", "field 1 1 1 1",
            "record 1", "mark 1", "mark 1 1 1", "image", "image 65536", "image -", "at 0", "at 0 0", "at 0 AA",
            "at 18446744073709551615 00", "at 65535 00", "keep 1", "bytes 1", "touched 1", "list 1", "unknown", "encode",
            "decode-entry 00", "encode-entry 1", "date x", "crc", "encode-table 4", "value 1", "set 1", "say_check",
            "record 1 22", "record 1 22 1", "record 1 22 1 0", "record 1 23 2 x", "set 22 1", "set 22 1 1 1", "encode-ticket 22 2",
            "encode-ticket 21", "encode-ticket 23 18446744073709551616", "record 1 18446744073709551616 2")

ON_AN_IMAGE = ("check", "list", "reads", "steps", "touched")


def random_case(script, dice):
    """One case; gives the image it loaded, or None."""
    kind = dice.below(100)
    if kind < 12 or not any(script.has(group) for group in ON_AN_IMAGE):
        for _ in range(12):
            random_value_call(script, dice)
        return None
    if kind < 55:
        return good_case(script, dice)
    if kind < 75:
        plan = random_plan(dice, small=dice.chance(60))
        number = dice.pick(faults.ORDER + (12, 12))
        images = list(faults.BY_NUMBER[number](dice, plan, plan.image()))
        image, answer = dice.pick(images) if images else (plan.image(), faults.GOOD)
    elif kind < 82:
        image, answer = faults.several_faults(dice, random_plan(dice, small=dice.chance(60)))
    elif kind < 90:
        image, answer = faults.mutated(dice, random_plan(dice, small=dice.chance(60))), None
    elif kind < 97:
        image, answer = faults.tangled(dice), None
    else:
        image, answer = raw_bytes(dice), None
    open_case(script, dice, image, answer)
    return image


def raw_bytes(dice):
    """Any bytes, often with a right front."""
    image = bytearray(dice.data(dice.pick([0, 1, 2, 3, 4, 5, 35, 36, 37, dice.between(0, 300)])))
    if len(image) >= 2 and dice.chance(70):
        image[0:2] = len(image).to_bytes(2, "big")
    if len(image) >= 4 and dice.chance(70):
        image[2:4] = bytes([1, dice.below(2)])
    if len(image) >= 6 and dice.chance(70):
        image[4:6] = bytes([4 * dice.between(5, 63), 0])
    return bytes(image)


def sizes_case(dice):
    """The smallest and the largest card now and then."""
    kind = dice.below(60)
    if kind == 0:
        return (237, 255, 1)
    if kind < 4:
        return (4, 32, 1)
    return None


def good_case(script, dice):
    """A good card with reads, steps and what they touched."""
    plan = random_plan(dice, small=dice.chance(40), sparse=dice.chance(20), sizes=sizes_case(dice))
    if dice.below(60) == 0:
        plan = dice.pick([full_plan, crowded_plan, lambda _: kinds_plan()])(dice)
    image = plan.image()
    script.load(image, fresh=True)
    script.say("check", expect="0 0")
    listed(script, plan.listing())
    if dice.chance(50):
        calls.whole_reads(script, plan)
    for j in dice.some(sorted(plan.chain), 3):
        calls.product_reads(script, plan, j)
    random_calls(script, dice, plan, 4)
    script.say("keep")
    for _ in range(dice.between(1, 10)):
        script.say(calls.random_step(dice, plan))
        if dice.chance(25):
            script.say(calls.random_read(dice, plan))
    script.say("touched")
    script.say("check")
    show_bytes(script, dice)
    random_calls(script, dice, plan, 3)
    return image


def listed(script, expect=None):
    """The listing, and a line that is answered `?` to show where it ends."""
    if script.say("list", expect=expect) is not None:
        script.say("?", expect="?")


def random_calls(script, dice, plan, count):
    """Reads with every byte of the lent buffer; any line now and then."""
    for _ in range(count):
        text = calls.random_read(dice, plan)
        script.say(text)
        if text.split(" ")[0] in ("ticket", "rest") and dice.chance(40):
            script.say("buffer", dice.pick([0, 1, plan.B, 2 * plan.B + 1, 1000]))
    if dice.chance(10):
        nonsense(script, dice)


def show_bytes(script, dice):
    """The whole image, seldom if it is large."""
    if len(script.talk.image) < 4000 or dice.chance(10):
        script.say("bytes")


def nonsense(script, dice):
    """A line that is no command."""
    script.say(dice.pick(NONSENSE), expect="?")


def open_case(script, dice, image, answer):
    """An image that may be refused, with calls that must keep all its bytes."""
    script.load(image, fresh=True)
    script.number("check", expect=answer)
    listed(script)
    for text in dice.some(["shell", "directory", "table", "entry 1", "chain 1", "ticket 1", "rest 1", "ticket 2 64",
                           "entry 2", "chain 2", "chain 3", "chain 0"], 5):
        script.say(text)
    if dice.chance(30):
        script.say(dice.pick(["ticket 1 300", "rest 1 300"]))
        script.say("buffer 303")
    script.say("keep")
    for _ in range(dice.between(0, 3)):
        j, form = dice.between(0, 4), dice.pick(FORMS)
        script.say(dice.pick(["field %d 1 255" % j, "field %d 23 0" % j, "field %d 26 0" % j, "mark %d 1" % j, "mark %d 2" % j,
                              "mark %d 3" % j, "record %d %d %d" % ((j,) + dice.pick(UNLISTED)),
                              record_line(j, form, random_record(dice, form)), record_line(j, form, random_record(dice, form))]))
    script.say("touched")
    show_bytes(script, dice)


def near(dice, top):
    """A value at or near a bound."""
    return dice.pick([0, 1, top, top, top + 1, top - 1, dice.between(0, top), dice.between(0, top), BIG])


def near_width(dice, form, field):
    """A value at or near the widest of a ticket field, for ExpiryTime often on either side of midnight."""
    if field == form.time and dice.chance(40):
        return dice.pick([1439, 1440])
    return near(dice, most(form)[field - 1])


def random_ticket_call(script, dice):
    """Encode, decode, set or read a record of any kind, or of none."""
    form = dice.pick(FORMS)
    kind, fields = name(form), len(form.widths)
    if dice.chance(15):
        kind = words(dice.pick(UNLISTED))
        fields = dice.pick([0, 22, MOST_VALUES, MOST_VALUES + 1, dice.between(0, MOST_VALUES)])
        field, values = dice.pick([0, 1, 22, 26]), [near(dice, 255) for _ in range(fields)]
        script.say(words(["set", kind, field, near(dice, 255)] + values))
        script.say(words(["value", kind, field] + values))
        script.say(words(["encode-ticket", kind] + values))
        script.say("decode-ticket", kind, dice.data(dice.pick([0, form.end - 2, MOST_BYTES, MOST_BYTES + 1])).hex() or "-")
    elif dice.chance(50):
        record = random_record(dice, form)
        if dice.chance(40):
            field = dice.between(1, fields)
            record[field - 1] = near_width(dice, form, field)
        script.say("encode-ticket", kind, words(record))
        script.say("decode-ticket", kind, dice.data(form.end - 2 + dice.pick([0] * 10 + [-1, 1])).hex())
    else:
        field = near(dice, fields)
        value = near_width(dice, form, field) if 1 <= field <= fields else near(dice, 255)
        record = random_record(dice, form) + [0]
        script.say("set", kind, field, value, words(record[:fields + dice.pick([0] * 10 + [-1, 1])]))
        script.say("value", kind, near(dice, fields), words([dice.word() for _ in range(fields)]))


def random_value_call(script, dice):
    """A call apart from any image."""
    kind = dice.below(12)
    if kind == 0:
        script.say("crc", dice.data(dice.between(0, 80)).hex() or "-")
    elif kind == 1:
        script.say("date", near(dice, 16383))
    elif kind == 2:
        script.say("stamp", dice.between(1996, 2042), near(dice, 12), dice.pick([1, 28, 29, 30, 31, 32, 0, dice.below(40)]))
    elif kind == 3:
        name, layout, size = dice.pick(LAYOUTS)
        values = random_values(dice, [width for _, width in layout])
        if dice.chance(40):
            i = dice.below(len(values))
            values[i] = near(dice, 2 ** layout[i][1] - 1)
        script.say("encode-" + name, words(values))
        script.say("decode-" + name, dice.data(size).hex())
    elif kind in (4, 5, 6, 7):
        random_ticket_call(script, dice)
    elif kind in (8, 9):
        values = random_shell(dice)
        if dice.chance(20):
            values = mistyped(dice, values)
        elif dice.chance(50):
            i = dice.below(16)
            values[i] = near(dice, 2 ** SHELL[i][1] - 1)
        lent = dice.pick([4 * min(values[0], 63), max(0, 4 * min(values[0], 63) - 1), dice.between(0, 300)])
        script.say("encode-shell", lent, words(values))
        script.say("decode-shell", dice.data(20).hex())
    else:
        S = dice.pick([3, 4, 5, 16, 17, 255, 256, dice.between(4, 60), dice.between(4, 255)])
        right = 4 <= S <= 255
        length = table_length(S) if right else 4
        count = S - 3 if right else 3
        top = 2 ** psi(S) if right else 16
        elements = [dice.below(top) for _ in range(max(0, count + dice.pick([0, 0, 0, 0, -1, 1])))]
        if elements and dice.chance(30):
            elements[dice.below(len(elements))] = dice.pick([top, top - 1, BIG])
        lent = max(0, length + dice.pick([0, 0, 0, 0, -1, 1]))
        script.say(words(["encode-table", S, lent] + elements))
        script.say("decode-table", S, dice.data(max(0, length + dice.pick([0, 0, 0, -1, 1]))).hex() or "-")
    if dice.chance(5):
        nonsense(script, dice)
