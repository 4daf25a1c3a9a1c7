"""Pairs of images for `touched`, with the answer each pair must have."""

from .calls import words
from .cards import element_set, entry_set, random_plan
from .faults import altered, bit_flipped, byte_set, mistyped, numbered, shell_set
from .isrn import BY_HAND


def pairs(dice, plan):
    """A second image for the plan's own, and the touched entries."""
    good = plan.image()
    yield good, []
    for j in dice.some(sorted(plan.chain), 3):
        sectors, mark = plan.chain[j]
        for sector in (sectors[0], sectors[-1]):
            yield bit_flipped(good, 8 * plan.place(sector) + dice.below(8 * plan.B)), [j]
        yield bit_flipped(good, 8 * plan.place(sectors[0])), [j]
        yield bit_flipped(good, 8 * plan.place(sectors[-1] + 1) - 1), [j]
        for other, element in enumerate((sectors[-1], plan.S - 1, plan.S - 2)):
            yield element_set(plan, good, sectors[-1], element), [] if other == mark else [j]
        values = list(plan.entry[j])
        values[6] ^= 1
        if any(values):
            yield entry_set(plan, good, j, values), [j]
        values = list(plan.entry[j])
        values[0] ^= 1
        yield entry_set(plan, good, j, values), [j]
        yield entry_set(plan, good, j, [0] * 7), [j]
        if len(sectors) > 1:
            yield element_set(plan, good, sectors[-2], plan.S - 1), [j]
        if len(sectors) > 2:
            yield swapped(plan, j), [j]
    for sector in dice.some(plan.free_sectors(), 2):
        yield bit_flipped(good, 8 * plan.place(sector) + dice.below(8 * plan.B)), []
        yield element_set(plan, good, sector, dice.between(0, plan.S - 1)), []
    for j in dice.some([j for j in plan.empty_entries() if j in plan.free_sectors()], 2):
        yield element_set(plan, entry_set(plan, good, j, [0, 0, 0, 0, 0, 0, 1]), j, plan.S - 1), [j]
    both = dice.some(sorted(plan.chain), 3)
    image = good
    for j in both:
        image = bit_flipped(image, 8 * plan.place(plan.chain[j][0][-1]) + dice.below(8 * plan.B))
    yield image, sorted(both)
    yield shell_set(good, "reserved", dice.below(4)), []
    seventeen, right = dice.pick(BY_HAND)
    yield numbered(good, seventeen + str(right)), []
    yield altered(plan, length=6).image(), []
    yield altered(plan, head=[1, 2, 3], tail=[4, 5, 6, 7], seal=b"\1" * plan.B, other_copy=b"\2").image(), []


def swapped(plan, j):
    """The same product, its last two sectors changed over."""
    sectors, mark = plan.chain[j]
    twin = altered(plan)
    twin.chain[j] = (sectors[:-2] + [sectors[-1], sectors[-2]], mark)
    a, b = sectors[-2], sectors[-1]
    twin.bytes[a], twin.bytes[b] = plan.bytes.get(b, b""), plan.bytes.get(a, b"")
    return twin.image()


def other_cards(dice, plan):
    """Images that differ in S, B, e# or the copy byte."""
    S, B, e = plan.S, plan.B, plan.entries
    yield altered(plan, copy=1 - plan.copy).image()
    if B < 255:
        yield random_plan(dice, sizes=(S, B + 1, e), sparse=True).image()
    if e > 1:
        yield random_plan(dice, sizes=(S, B, e - 1), sparse=True).image()
        yield random_plan(dice, sizes=(S, B, 1), sparse=True).image()
    if S > e + 3:
        yield random_plan(dice, sizes=(S - 1, B, e), sparse=True).image()


def touched_calls(script, dice, plan):
    """All pairs of one card, the other cards, and refusals on either side."""
    good = plan.image()
    script.load(good)
    script.say("keep", expect="ok")
    for image, entries in pairs(dice, plan):
        script.load(image)
        script.say("touched", expect=words([0, 0] + entries))
    for image in other_cards(dice, plan):
        script.load(image)
        script.say("touched", expect="90 0")
    bad = byte_set(good, 2, 2)
    script.load(bad)
    script.say("touched", expect="2 0")
    script.say("keep", expect="ok")
    script.load(byte_set(good, 3, 2))
    script.say("touched", expect="2 0")
    script.load(good)
    script.say("touched", expect="2 0")
    script.say("keep", expect="ok")
    script.load(byte_set(good, 3, 2))
    script.say("touched", expect="3 0")
    script.load(mistyped(dice, good))
    script.say("touched", expect="12 0")
    script.say("keep", expect="ok")
    script.load(byte_set(good, 3, 2))
    script.say("touched", expect="12 0")
    script.load(good)
    script.say("touched", expect="12 0")
    script.say("keep", expect="ok")
    if plan.chain:
        j = max(plan.chain)
        broken = element_set(plan, good, plan.chain[j][0][-1], 0)
        script.load(broken)
        script.say("touched", expect=words([10, j]))
        script.say("keep", expect="ok")
        script.load(byte_set(good, 2, 0))
        script.say("touched", expect=words([10, j]))
