"""Images at the very boundary of numbers 1 to 12, with the answer each must have."""

import copy

from model.bits import read_bits, write_bits
from model.crc import crc
from model.table import psi, table_bits, table_length

from . import isrn
from .cards import Plan, element_set, entry_set, full_plan, most_entries, random_entry, random_plan

GOOD = (0, 0)

# The numbers of an image in the order in which they are judged.
ORDER = (1, 2, 3, 4, 5, 6, 7, 8, 12, 9, 10, 11)

# First bit and width in the shell's first twenty bytes.
PLACE = {"ShellLength": (0, 6), "ShellBitMap": (6, 6), "reserved": (112, 2),
         "B": (128, 8), "S": (136, 8), "e#": (144, 8), "SCTL": (152, 8)}

# The image's bytes that hold the eighteen digits of the shell's number.
DIGITS = slice(6, 15)


def restated(image):
    """The image with its own length in its first two bytes."""
    return (len(image) % 65536).to_bytes(2, "big") + bytes(image[2:])


def resealed(image):
    """The image with the right SECR for its shell, as far as it lies in the image."""
    image = bytearray(image)
    length = 4 * (image[4] >> 2)
    if length >= 2 and 4 + length <= len(image):
        image[2 + length:4 + length] = crc(image[4:2 + length]).to_bytes(2, "big")
    return bytes(image)


def byte_set(image, place, value):
    """The image with one byte changed."""
    image = bytearray(image)
    image[place] = value
    return bytes(image)


def bit_flipped(image, bit):
    """The image with one bit changed."""
    return byte_set(image, bit // 8, image[bit // 8] ^ (128 >> (bit % 8)))


def shell_set(image, name, value):
    """The image with one shell value changed, and the SECR right again."""
    first, width = PLACE[name]
    image = bytearray(image)
    write_bits(image, 32 + first, width, value)
    return resealed(image)


def digits_in(image):
    """The eighteen digits of the shell's number, as they stand in the image."""
    return image[DIGITS].hex()


def misprinted(image, digits):
    """The image with these eighteen digits and its old SECR."""
    return bytes(image[:DIGITS.start]) + bytes.fromhex(digits) + bytes(image[DIGITS.stop:])


def numbered(image, digits):
    """The image with these eighteen digits, and the SECR right again."""
    return resealed(misprinted(image, digits))


def mistyped(dice, image):
    """The image with one digit of its right number changed, so that its check digit is wrong, and the SECR right again."""
    return numbered(image, isrn.one_changed(dice, digits_in(image)))


def altered(plan, **changes):
    """The plan with some of its parts changed."""
    plan = copy.deepcopy(plan)
    for name, value in changes.items():
        setattr(plan, name, value)
    return plan


def length_cases(dice, plan, good):
    """Number 1."""
    for size in range(4):
        yield good[:size], (1, 0)
    yield bytes([0, 3, 1]), (1, 0)
    yield bytes([0, 2]), (1, 0)
    yield bytes([0, 4, 1, 0]), (4, 0)
    stated = len(good)
    swapped = (stated % 256) * 256 + stated // 256
    for wrong in sorted({stated - 1, stated + 1, stated ^ 256, 0, swapped} - {stated}):
        yield (wrong % 65536).to_bytes(2, "big") + good[2:], (1, 0)
    yield good + b"\0", (1, 0)
    yield good[:-1], (1, 0)


def version_cases(dice, plan, good):
    """Number 2."""
    for version in (0, 2, 3, 129, 255):
        yield byte_set(good, 2, version), (2, 0)
    yield bytes([0, 4, 2, 2]), (2, 0)


def copy_cases(dice, plan, good):
    """Number 3; the other copy in force makes a card of its own."""
    for number in (2, 3, 128, 255):
        yield byte_set(good, 3, number), (3, 0)
    yield bytes([0, 4, 1, 2]), (3, 0)
    yield altered(plan, copy=1 - plan.copy).image(), GOOD


def short_cases(dice, plan, good):
    """Number 4: 35 bytes and 36."""
    for size in (4, 5, 23, 24, 34, 35):
        yield restated(good[:size]), (4, 0)
    yield restated(good[:36]), (6, 0)
    yield restated(shell_set(good, "ShellBitMap", 1)[:36]), (5, 0)


def form_cases(dice, plan, good):
    """Number 5: the bit map, and datasets of 20 and 24 bytes."""
    for value in (1, 2, 32, 63):
        yield shell_set(good, "ShellBitMap", value), (5, 0)
    for value in (0, 1, 5):
        yield shell_set(good, "ShellLength", value), (5, 0)
    yield altered(plan, length=6).image(), GOOD
    for revision in (0, 2, 15):
        yield altered(plan, revision=revision).image(), GOOD


def size_cases(dice, plan, good):
    """Number 6, each of its causes, and the sizes just within."""
    S, B, e, sctl = plan.S, plan.B, plan.entries, plan.sctl()
    for value in sorted({0, 3, S - 1, S + 1}):
        yield shell_set(good, "S", value), (6, 0)
    for value in sorted({0, 31, B - 1, (B + 1) % 256} - {B}):
        yield shell_set(good, "B", value), (6, 0)
    for value in sorted({0, S - 2, 255}):
        yield shell_set(good, "e#", value), (6, 0)
    for value in sorted({0, sctl - 1, sctl + 1, 255} - {sctl}):
        yield shell_set(good, "SCTL", value), (6, 0)
    if B // 4 + 1 <= 63:
        yield shell_set(good, "ShellLength", B // 4 + 1), (6, 0)
        yield altered(plan, length=B // 4 + 1).image(), (6, 0)
        yield shell_set(good, "ShellLength", 63), (6, 0)
    yield altered(plan, length=min(63, B // 4)).image(), GOOD
    if len(good) + B < 65536:
        yield restated(good + b"\0"), (6, 0)
        yield restated(good + bytes(B)), (6, 0)
    yield restated(good[:-1]), (6, 0)
    yield restated(good[:-B]), (6, 0)


def directory_size_cases(dice):
    """Number 6: 16 + 5 x e# + SCTL equal to B, and one more."""
    S = dice.between(5, 44)
    most = min(S - 3, (255 - 16 - table_length(S)) // 5)
    least = max(1, -(-(33 - 16 - table_length(S)) // 5))
    e = dice.between(min(least, most), most)
    exact = 16 + 5 * e + table_length(S)
    if exact >= 33:
        yield random_plan(dice, sizes=(S, exact, e)).image(), GOOD
        yield Plan(S, exact - 1, e).image(), (6, 0)
    if e + 1 <= S - 3 and exact >= 32:
        yield Plan(S, exact, e + 1).image(), (6, 0)
    if 16 + 5 * (S - 2) + table_length(S) <= 255:
        yield random_plan(dice, sizes=(S, 255, S - 3)).image(), GOOD
        yield Plan(S, 255, S - 2).image(), (6, 0)


def smallest_cases(dice):
    """The smallest card, and one byte less in each sector."""
    smallest = random_plan(dice, sizes=(4, 32, 1)).image()
    assert len(smallest) == 132
    yield smallest, GOOD
    yield Plan(4, 31, 1).image(), (6, 0)
    three = restated(resealed(smallest[:4 + 3 * 32]))
    yield shell_set(three, "S", 3), (6, 0)
    yield shell_set(shell_set(three, "S", 3), "SCTL", 0), (6, 0)


def largest_cases(dice, sparse=True):
    """The largest card, and one sector or one entry more."""
    largest = random_plan(dice, sizes=(237, 255, 1), sparse=sparse).image()
    assert len(largest) == 60439
    yield largest, GOOD
    full = full_plan(dice)
    image, sectors = full.image(), full.chain[1][0]
    yield image, GOOD
    yield element_set(full, image, sectors[-1], sectors[0]), (10, 1)
    yield element_set(full, image, sectors[-1], sectors[-2]), (10, 1)
    yield element_set(full, image, sectors[-1], 237), (10, 1)
    yield element_set(full, image, sectors[-1], 235), GOOD
    yield element_set(full, image, sectors[117], 236), GOOD
    yield Plan(238, 255, 1).image(), (6, 0)
    yield Plan(237, 255, 2).image(), (6, 0)
    yield Plan(237, 254, 1).image(), (6, 0)


def checksum_cases(dice, plan, good):
    """Number 7: each part of the dataset is covered, and nothing after it."""
    length = 4 * plan.length
    for bit in dice.some(range(8 * (length - 2), 8 * length), 4):
        yield bit_flipped(good, 32 + bit), (7, 0)
    for bit in dice.some(range(16, 128), 4):
        yield bit_flipped(good, 32 + bit), (7, 0)
    yield bit_flipped(good, 32 + dice.between(160, 8 * (length - 2) - 1)), (7, 0)
    place = 4 + length - 2
    if good[place] != good[place + 1]:
        yield good[:place] + bytes([good[place + 1], good[place]]) + good[place + 2:], (7, 0)
    if length < plan.B:
        yield bit_flipped(good, 32 + 8 * length), GOOD
        yield bit_flipped(good, 32 + 8 * plan.B - 1), GOOD


def digit_cases(dice, plan, good):
    """Number 8: every digit at 9 and 10, and the padding."""
    digits = digits_in(good)
    for place in range(18):
        over = dice.pick(["a", "a", "f", dice.pick(isrn.OVER)])
        yield numbered(good, isrn.with_digit(digits, place, over)), (8, 0)
        if place != isrn.CHD_PLACE and dice.chance(30):
            yield numbered(good, isrn.whole(isrn.with_digit(digits, place, 9)[:17])), GOOD
    yield numbered(good, digits[:6] + "ffff" + digits[10:]), (8, 0)
    yield shell_set(good, "reserved", 3), GOOD
    for image in padded(dice, plan, good):
        yield image, (8, 0)


def padded(dice, plan, image):
    """The image with a bit of the shell's padding set: its first, its last and any."""
    last = 4 * plan.length - 3
    for place, value in ((20, 128), (last, 1), (dice.between(20, last), 1 << dice.below(8))):
        yield resealed(byte_set(image, 4 + place, value))


def number_cases(dice, good, count):
    """Number 12: so many digits changed, neighbours exchanged, and numbers by hand; what the rule does not notice is accepted."""
    digits = digits_in(good)
    for place in dice.some(range(18), count):
        yield numbered(good, isrn.one_changed(dice, digits, place)), (12, 0)
    for place, noticed in dice.some(isrn.neighbours(digits), count):
        yield numbered(good, isrn.exchanged(digits, place, place + 1)), (12, 0) if noticed else GOOD
    for place in dice.some(range(16), count):
        yield numbered(good, isrn.exchanged(digits, place, place + 2)), GOOD
    for seventeen, right in dice.some(isrn.BY_HAND, count):
        yield numbered(good, seventeen + str(right)), GOOD
        yield numbered(good, seventeen + str((right + dice.between(1, 9)) % 10)), (12, 0)


def beside_cases(dice, plan, good):
    """A wrong check digit beside a fault of every other number: 1 to 8 come first, and 9 to 11 come after it."""
    wrong = mistyped(dice, good)
    for number in ORDER[:ORDER.index(12)]:
        case = one_fault(dice, plan, wrong, number)
        if case is not None:
            yield case
    yield misprinted(good, digits_in(wrong)), (7, 0)
    for blocks in (0, 5):
        yield shell_set(wrong, "ShellLength", blocks), (5, 0)
    yield shell_set(wrong, "S", plan.S - 1), (6, 0)
    for image in padded(dice, plan, wrong):
        yield image, (8, 0)
    for place in range(18):
        digits = isrn.one_changed(dice, digits_in(good), (place + dice.between(1, 17)) % 18)
        yield numbered(good, isrn.with_digit(digits, place, dice.pick(isrn.OVER))), (8, 0)
    for later in ((9,), (10,), (11,), (11, 10), (11, 9), (10, 9), (11, 10, 9)):
        image = with_faults(dice, plan, wrong, later)
        if image is not None:
            yield image, (12, 0)


def with_faults(dice, plan, image, numbers):
    """The image with a fault of each of these numbers; None if the card has no room for them."""
    for number in numbers:
        case = one_fault(dice, plan, image, number)
        if case is None:
            return None
        image, _ = case
    return image


def check_digit_cases(dice, plan, good):
    """Number 12: some digits of the number, and some other faults beside."""
    yield from number_cases(dice, good, 3)
    yield from dice.some(beside_cases(dice, plan, good), 3)


def every_digit_cases(dice, plan, good):
    """Numbers 8 and 12 for every digit: all of the above, every digit of OID and CHD above 9, and every check digit of a number."""
    yield from number_cases(dice, good, 18)
    yield from beside_cases(dice, plan, good)
    digits = digits_in(good)
    for place in list(isrn.OID_PLACES) + [isrn.CHD_PLACE]:
        for over in isrn.OVER:
            yield numbered(good, isrn.with_digit(digits, place, over)), (8, 0)
    for chd in range(10):
        number = isrn.with_digit(digits, isrn.CHD_PLACE, chd)
        yield numbered(good, number), GOOD if number == digits else (12, 0)
        yield numbered(good, isrn.with_digit(number, dice.below(17), dice.pick(isrn.OVER))), (8, 0)


def dataset_cases(dice, plan):
    """Numbers 8 and 12 for datasets of 24 bytes, of some more and of as many as the sector holds."""
    most = min(63, plan.B // 4)
    for length in sorted({6, 7, 8, dice.between(6, most), most}):
        if length <= most:
            twin = altered(plan, length=length)
            good = twin.image()
            yield good, GOOD
            yield mistyped(dice, good), (12, 0)
            for image in padded(dice, twin, mistyped(dice, good)):
                yield image, (8, 0)


def padding_cases(dice, plan, good):
    """Number 9: every bit after the last element, in the copy in force alone."""
    used, spare = table_bits(plan.S), 8 * plan.sctl() - table_bits(plan.S)
    start = 8 * plan.table_place()
    for bit in range(spare):
        yield bit_flipped(good, start + used + bit), (9, 0)
    if plan.S - 3 in plan.free_sectors():
        yield bit_flipped(good, start + used - 1), GOOD
        yield element_set(plan, good, plan.S - 3, 2 ** psi(plan.S) - 1), GOOD
    yield bit_flipped(good, start + 8 * plan.sctl()), GOOD
    yield altered(plan, other_copy=b"\xff" * plan.B).image(), GOOD


def broken_cases(dice, plan, good):
    """Number 10: 0, S, and a return, each at the end of a chain; and the ends that are right."""
    S, top = plan.S, 2 ** psi(plan.S) - 1
    for j in dice.some(sorted(plan.chain), 4):
        sectors, _ = plan.chain[j]
        last = sectors[-1]
        yield element_set(plan, good, last, 0), (10, j)
        if top >= S:
            yield element_set(plan, good, last, S), (10, j)
            yield element_set(plan, good, last, top), (10, j)
        for element in (last, S - 1, S - 2):
            yield element_set(plan, good, last, element), GOOD
        if len(sectors) > 1:
            yield element_set(plan, good, last, sectors[0]), (10, j)
            yield element_set(plan, good, last, sectors[-2]), (10, j)
            yield element_set(plan, good, sectors[0], 0), (10, j)
            yield element_set(plan, good, sectors[0], sectors[0]), GOOD
            yield element_set(plan, good, sectors[-2], S - 2), GOOD
        if len(sectors) > 3:
            yield element_set(plan, good, sectors[2], sectors[1]), (10, j)
        free = [n for n in plan.free_sectors() if n not in sectors]
        if free:
            n = dice.pick([free[0], free[-1], dice.pick(free)])
            longer = element_set(plan, good, last, n)
            yield element_set(plan, longer, n, dice.pick([n, S - 1, S - 2])), GOOD
            yield element_set(plan, longer, n, 0), (10, j)
            yield element_set(plan, longer, n, dice.pick(sectors)), (10, j)
            if top >= S:
                yield element_set(plan, longer, n, dice.between(S, top)), (10, j)
    if len(plan.chain) > 1:
        low, high = sorted(dice.some(sorted(plan.chain), 2))
        image = element_set(plan, good, plan.chain[high][0][-1], 0)
        yield image, (10, high)
        yield element_set(plan, image, plan.chain[low][0][-1], 0), (10, low)
    for n in dice.some(plan.free_sectors(), 2):
        yield element_set(plan, good, n, 0), GOOD
        yield element_set(plan, good, n, top), GOOD
    yield from single_bits(dice, plan, good, dice.some(range(40), 3))


def single_bits(dice, plan, good, bits):
    """An entry with one bit is not empty, so its chain is judged."""
    for j in [j for j in plan.empty_entries() if j in plan.free_sectors()][:1]:
        for bit in bits:
            image = bit_flipped(good, 8 * plan.entry_place(j) + bit)
            yield element_set(plan, image, j, 0), (10, j)
            yield element_set(plan, image, j, plan.S - 1), GOOD
        yield element_set(plan, good, j, 0), GOOD


def shared_cases(dice, plan, good):
    """Number 11: a chain that runs into another, at its first, middle and last sector."""
    S = plan.S
    if len(plan.chain) > 1:
        low, high = sorted(dice.some(sorted(plan.chain), 2))
        for first, second in ((low, high), (high, low)):
            last = plan.chain[first][0][-1]
            other = plan.chain[second][0]
            for sector in sorted({other[0], other[-1], dice.pick(other)}):
                yield element_set(plan, good, last, sector), (11, high)
        both = element_set(plan, good, plan.chain[low][0][-1], plan.chain[high][0][0])
        both = element_set(plan, both, plan.chain[high][0][-1], plan.chain[low][0][0])
        yield both, (10, low)
    if len(plan.chain) > 3:
        a, b, c, d = dice.some(sorted(plan.chain), 4)
        image = element_set(plan, good, plan.chain[a][0][-1], dice.pick(plan.chain[b][0]))
        image = element_set(plan, image, plan.chain[c][0][-1], dice.pick(plan.chain[d][0]))
        yield image, (11, min(max(a, b), max(c, d)))
        e = max(plan.chain)
        if e not in (a, b, c, d):
            yield element_set(plan, image, plan.chain[e][0][-1], 0), (10, e)
    for j in sorted(plan.chain):
        for sector in plan.chain[j][0][1:]:
            if sector <= plan.entries:
                yield entry_set(plan, good, sector, random_entry(dice)), (11, max(j, sector))
                break
    for j in dice.some(plan.empty_entries(), 2):
        if j in plan.free_sectors():
            image = entry_set(plan, good, j, [0, 0, 0, 0, 0, 0, 1])
            yield element_set(plan, image, j, dice.pick([j, S - 1, S - 2])), GOOD
            yield element_set(plan, image, j, 0), (10, j)
            if plan.chain:
                k = dice.pick(sorted(plan.chain))
                yield element_set(plan, image, j, dice.pick(plan.chain[k][0])), (11, max(j, k))


BY_NUMBER = {1: length_cases, 2: version_cases, 3: copy_cases, 4: short_cases, 5: form_cases,
             6: size_cases, 7: checksum_cases, 8: digit_cases, 9: padding_cases,
             10: broken_cases, 11: shared_cases, 12: check_digit_cases}


def boundary_cases(dice, plan, numbers=ORDER):
    """All boundary images of one card."""
    good = plan.image()
    yield good, GOOD
    for number in numbers:
        yield from BY_NUMBER[number](dice, plan, good)


def several_faults(dice, plan):
    """An image with several faults at once; the first number in the order decides."""
    wished = sorted(dice.some(ORDER, dice.between(2, 6)), key=ORDER.index, reverse=True)
    image, answer = plan.image(), GOOD
    for number in wished:
        step = one_fault(dice, plan, image, number)
        if step is not None:
            image, answer = step
    return image, answer


def one_fault(dice, plan, image, number):
    """The image with one more fault, judged before those it has; None if the card has no room for it."""
    chains = sorted(plan.chain)
    if number == 11 and len(chains) > 1:
        low, high = sorted(dice.some(chains, 2))
        return element_set(plan, image, plan.chain[high][0][-1], plan.chain[low][0][0]), (11, high)
    if number == 10 and chains:
        j = chains[0]
        return element_set(plan, image, plan.chain[j][0][-1], 0), (10, j)
    if number == 9 and table_bits(plan.S) % 8:
        return bit_flipped(image, 8 * (plan.table_place() + plan.sctl()) - 1), (9, 0)
    if number == 12:
        return mistyped(dice, image), (12, 0)
    if number == 8:
        if dice.chance(50):
            return resealed(byte_set(image, 4 + 20, dice.between(1, 255))), (8, 0)
        return numbered(image, isrn.with_digit(digits_in(image), dice.below(18), dice.pick(isrn.OVER))), (8, 0)
    if number == 7:
        return bit_flipped(image, 32 + 8 * (4 * plan.length - 2) + dice.below(16)), (7, 0)
    if number == 6:
        first, width = PLACE[dice.pick(["SCTL", "e#", "S", "B"])]
        wrong = bytearray(image)
        write_bits(wrong, 32 + first, width, dice.pick([0, 1, 2, 3]) if first != 144 else dice.pick([0, 255]))
        if read_bits(wrong, 32 + first, width) == read_bits(image, 32 + first, width):
            return None
        return bytes(wrong), (6, 0)
    if number == 5:
        wrong = bytearray(image)
        if dice.chance(50):
            write_bits(wrong, 32 + 6, 6, dice.between(1, 63))
        else:
            write_bits(wrong, 32, 6, dice.below(6))
        return bytes(wrong), (5, 0)
    if number == 4:
        return restated(image[:dice.between(4, 35)]), (4, 0)
    if number == 3:
        return byte_set(image, 3, dice.between(2, 255)), (3, 0)
    if number == 2:
        return byte_set(image, 2, dice.pick([0, 2, 255])), (2, 0)
    if number == 1:
        return byte_set(image, 1, image[1] ^ (1 << dice.below(8))), (1, 0)
    return None


def digits_damaged(dice, image):
    """The image with a digit of its number changed or with two neighbours exchanged, if it has decimal digits."""
    digits, place = digits_in(image), dice.below(17)
    if not digits.isdecimal():
        return image
    return misprinted(image, dice.pick([isrn.one_changed(dice, digits), isrn.exchanged(digits, place, place + 1)]))


def digits_mended(image):
    """The image with the check digit of its number, if it has decimal digits."""
    digits = digits_in(image)
    return misprinted(image, isrn.whole(digits[:17])) if digits[:17].isdecimal() else image


def mutated(dice, plan):
    """A good card with random changes, often with the right SECR again, and then often with the right check digit; its answer is open."""
    image = bytearray(plan.image())
    for _ in range(dice.between(1, 4)):
        start, length = dice.pick([
            (0, 4), (4, 20), (4, 4 * plan.length), (plan.directory_place(), plan.B),
            (plan.table_place(), plan.sctl()), (plan.table_place(), plan.sctl()),
            (plan.table_place(), plan.sctl()), (0, len(image))])
        place = start + dice.below(length)
        image[place] = dice.pick([0, 255, dice.below(256), image[place] ^ (1 << dice.below(8)),
                                  (image[place] + 1) % 256])
    if dice.chance(50):
        kind = dice.below(10)
        if kind == 0:
            image = digits_damaged(dice, image)
        elif kind < 8:
            image = digits_mended(image)
        image = bytearray(resealed(image))
    if dice.chance(10):
        cut = dice.between(0, len(image))
        image = image[:cut]
    if dice.chance(50):
        image = bytearray(restated(image)[:len(image)])
    return bytes(image)


def tangled(dice, sparse=False):
    """A card with a random chain table and many entries; its answer is open."""
    S = dice.between(6, 24)
    B = dice.between(60, 160)
    plan = random_plan(dice, sizes=(S, B, dice.between(1, most_entries(S, B))), sparse=sparse, tickets=20)
    image = plan.image()
    for sector in range(1, S - 2):
        element = dice.pick([dice.below(2 ** psi(S)), dice.between(1, S - 1), sector, S - 1, S - 2,
                             S - 1, S - 2, min(sector + plan.entries, S - 3)])
        image = element_set(plan, image, sector, element)
    return image
