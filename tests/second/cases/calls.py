"""Calls on a good card, at the very boundary of numbers 20 to 28 (24 is withdrawn), and on a refused one, with their answers."""

from model.table import BLOCKED, FRESH, USED, psi

from .cards import (NIGHT, element_set, entry_set, kinds_plan, night_plan, product_bits_set, random_record, record_with)
from .forms import (BIG, FORMS, MOST_VALUES, UNLISTED, form_of, most, name, place, unlisted_revisions, unpacked, whole_place)

REVISION = (12, 4)
IPE_LENGTH = (0, 6)


def wrong_entries(dice, plan):
    """Entries that are met by number 20."""
    first = min(plan.chain) if plan.chain else 1
    return [0, plan.entries + 1, 256 + first, 2 ** 32 + first, BIG] + dice.some(plan.empty_entries(), 2)


def tickets(plan, writable=False):
    """The entries with a ticket that can be read, or written."""
    return [j for j in sorted(plan.ticket) if not writable or plan.chain[j][1] != 2]


def whole_reads(script, plan):
    """Every value of the card; the shell encodes again."""
    script.say("shell", expect=words([0, 0] + plan.shell_values()))
    script.say("encode-shell", 4 * plan.length, words(plan.shell_values()), expect="0 0 " + plan.dataset().hex())
    script.say("directory", expect=words([0, 0] + plan.head + plan.tail))
    script.say("table", expect=words([0, 0] + plan.elements()))


def refused_calls(script, dice, plan, image, number):
    """Every call on an image that is refused with this number and entry 0: zeros, and no byte of the image or of the buffer altered."""
    refusal = words([number, 0])
    script.load(image)
    script.say("check", expect=refusal)
    script.say("list", expect="refused " + refusal)
    script.say("shell", expect=words([refusal] + [0] * 16))
    script.say("directory", expect=words([refusal] + [0] * 7))
    script.say("table", expect=refusal)
    script.say("keep", expect="ok")
    for j in sorted(plan.chain)[:1] + [0, plan.entries + 1]:
        script.say("entry", j, expect=words([refusal] + [0] * 7))
        script.say("chain", j, expect=words([refusal, 0, 0]))
        size = plan.product_length(j) if j in plan.chain else plan.B
        for text, expect in (("ticket", refusal), ("rest", "-")):
            script.say(text, j, size, expect=expect)
            script.say("buffer", size + 1, expect="a5" * (size + 1))
        form = plan.ticket[j][0] if j in plan.ticket else dice.pick(FORMS)
        for text in ("field %d 1 255" % j, "field %d 0 %d" % (j, BIG), record_line(j, form, random_record(dice, form)),
                     "record %d %d %d" % ((j,) + dice.pick(UNLISTED)), "mark %d 1" % j, "mark %d 2" % j, "mark %d 3" % j):
            script.say(text, expect=refusal)
    script.say("touched", expect=refusal)
    script.say("bytes", expect=image.hex())


def product_reads(script, plan, j):
    """Every value of one product, and the lent buffer after both calls."""
    size = plan.product_length(j)
    script.say("entry", j, expect=words([0, 0] + plan.entry[j]))
    script.say("chain", j, expect=plan.chain_answer(j))
    if j in plan.ticket:
        script.say("ticket", j, size, expect=plan.ticket_answer(j))
        script.say("rest", j, expect=plan.rest_answer(j))


def words(values):
    """Values as a line."""
    return " ".join(map(str, values))


def record_line(j, form, record):
    """A record write of a record that names this form."""
    return "record %d %s %s" % (j, name(form), words(record))


def with_wide(dice, form, record):
    """The record with one value, at times two, beyond its field."""
    record = list(record)
    field = dice.below(len(record))
    record[field] = dice.pick([2 ** form.widths[field], 2 ** form.widths[field], BIG])
    if dice.chance(30):
        record[dice.below(len(record))] = BIG
    return record


def entry_calls(script, dice, plan, steps=False):
    """Number 20 for every call that names an entry."""
    for j in wrong_entries(dice, plan):
        script.number("entry", j, expect=(20, j))
        script.number("chain", j, expect=(20, j))
        script.say("ticket", j, dice.pick([0, 65536]), expect=words([20, j]))
        script.say("rest", j, expect="-")
        if steps:
            step_refused(script, dice, "field %d 1 0" % j, (20, j))
            form = dice.pick(FORMS)
            step_refused(script, dice, record_line(j, form, random_record(dice, form)), (20, j))
            step_refused(script, dice, "record %d %d %d" % ((j,) + dice.pick(UNLISTED)), (20, j))
            step_refused(script, dice, "mark %d %d" % (j, dice.between(0, 3)), (20, j))


def buffer_calls(script, dice, plan, j, show=True):
    """Number 21: one byte less than the product, and every byte of the lent buffer."""
    size = plan.product_length(j)
    for lent in (0, size - 1, size, size + 1):
        taken = lent >= size
        for text, expect in (("ticket", plan.ticket_answer(j) if taken else words([21, j])),
                             ("rest", plan.rest_answer(j) if taken else "-")):
            script.say(text, j, lent, expect=expect)
            if show and lent >= size - 1:
                script.say("buffer", size + 3)


def formed(plan, image, j, typ, revision, blocks):
    """The image with TYP, revision and IPELength of entry j's product set."""
    image = entry_set(plan, image, j, plan.entry[j][:2] + [typ] + plan.entry[j][3:])
    image = product_bits_set(plan, image, j, *REVISION, revision)
    return product_bits_set(plan, image, j, *IPE_LENGTH, blocks)


def form_number(plan, j, typ, revision, blocks):
    """The number that such a form gives a read: 22, 23 or 0."""
    form = form_of(typ, revision)
    if form is None:
        return 22
    return 0 if form.least <= 4 * blocks <= plan.product_length(j) else 23


def forms_at_the_boundary(dice, plan, j):
    """TYP, revision and IPELength at the boundary of 22 and 23: other TYPs, other revisions, every kind just long enough and not."""
    form, (blocks, _, _), _ = plan.ticket[j]
    length = plan.product_length(j)
    for typ in (0, 21, 22, 23, 24, 31):
        yield typ, form.revision, blocks
    for revision in (0, 1, 2, 3, 4, dice.between(5, 15)):
        yield form.typ, revision, blocks
    for other in FORMS:
        yield other.typ, other.revision, other.least // 4
        yield other.typ, other.revision, other.least // 4 - 1
    for blocks in sorted({0, length // 4, length // 4 + 1, 63}):
        if blocks <= 63:
            yield form.typ, form.revision, blocks


def late_time(dice):
    """An ExpiryTime on the day after the expiry date."""
    return dice.pick([1440, 2047, dice.between(1440, 2047)])


def several_forms(dice, plan, good, j, time):
    """An image with this ExpiryTime and with 22, 23, both or neither, with the number of a read or write."""
    form, (blocks, _, _), _ = plan.ticket[j]
    numbers = dice.some([22, 23], dice.pick([0, 1, 2, 2]))
    image = product_bits_set(plan, good, j, form.time_bit, 11, time)
    if 23 in numbers:
        blocks = dice.below(form.least // 4)
    revision = dice.pick(unlisted_revisions(form.typ)) if 22 in numbers else form.revision
    return formed(plan, image, j, form.typ, revision, blocks), min(numbers or [0])


def ticket_calls(script, dice, plan, good, j, show=False):
    """22 and 23 for a read, each alone and both at once; ExpiryTimes around midnight, which are all read."""
    size = plan.product_length(j)
    form, _, record = plan.ticket[j]
    for typ, revision, blocks in forms_at_the_boundary(dice, plan, j):
        image = formed(plan, good, j, typ, revision, blocks)
        number = form_number(plan, j, typ, revision, blocks)
        script.load(image)
        read_both(script, plan, image, j, size, number, form_of(typ, revision), show and number)
    for time in (0, 1439, 1440, 1441, 2047):
        script.load(product_bits_set(plan, good, j, form.time_bit, 11, time))
        script.say("ticket", j, size, expect=plan.ticket_answer(j, record_with(record, form.time, time)))
        script.say("rest", j, size, expect=plan.rest_answer(j))
    for _ in range(3):
        image, number = several_forms(dice, plan, good, j, late_time(dice))
        script.load(image)
        read_both(script, plan, image, j, size, number, form, show)
        read_both(script, plan, image, j, size - 1, 21, form, show)


def read_both(script, plan, image, j, lent, number, form, show=False):
    """Both calls of a read: refused alike, or taken with what the product's own bytes say in this form."""
    product = plan.product(j, image)
    if number:
        ticket, rest, buffer = words([number, j]), "-", b""
    else:
        header = [product[0] >> 2, (product[0] & 3) << 4 | product[1] >> 4, product[1] & 15]
        ticket = plan.read_answer(j, form, header, unpacked(form, product[2:form.end]))
        rest, buffer = product[form.end:4 * header[0]].hex() or "=", product
    left = buffer.hex() + "a5" * (lent + 1 - len(buffer))
    for text, expect in (("ticket", ticket), ("rest", rest)):
        script.say(text, j, lent, expect=expect)
        if show:
            script.say("buffer", lent + 1, expect=left)


def step_refused(script, dice, text, expect):
    """A step that must be refused and must keep all bytes."""
    before = bytes(script.talk.image)
    script.number(text, expect=expect)
    if bytes(script.talk.image) != before:
        script.wrong.append((text, "bytes changed", "refused"))


def step_taken(script, text, changed=None):
    """A step that must be taken; only the bits given may change."""
    before = int.from_bytes(script.talk.image, "big")
    script.number(text, expect=(0, 0))
    after = int.from_bytes(script.talk.image, "big")
    if changed is not None:
        first, width = changed
        below = 8 * len(script.talk.image) - first - width
        if ((before ^ after) & ~(((1 << width) - 1) << below)) != 0:
            script.wrong.append((text, "other bits changed", changed))


def field_steps(script, dice, plan, j, count=None, show=lambda: None):
    """25 and 26 at their boundaries, and the values just within, for so many fields and the last one, or for all."""
    form, _, _ = plan.ticket[j]
    last = len(form.widths)
    for field in (0, last + 1, last + 2, 256 + 1, 2 ** 32 + 1, BIG):
        step_refused(script, dice, "field %d %d %d" % (j, field, dice.pick([0, BIG])), (25, j))
    show()
    fields = range(1, last + 1) if count is None else dice.some(range(1, last), count - 1) + [last]
    for field in fields:
        first, width = place(form, field)
        top = 2 ** width - 1
        for value in (top + 1, top + 2, 2 ** 63, BIG):
            step_refused(script, dice, "field %d %d %d" % (j, field, value), (26, j))
        for value in dice.shuffled([0, top, dice.between(0, top)])[:2]:
            step_taken(script, "field %d %d %d" % (j, field, value), (8 * plan.place(j) + first, width))
        show()


def whole_record(plan, j, form):
    """First bit in the image and width of what a record write may alter."""
    first, width = whole_place(form)
    return 8 * plan.place(j) + first, width


def record_steps(script, dice, plan, j, show=lambda: None):
    """26 for each field of a record, records of other kinds, and records that fit."""
    form, _, _ = plan.ticket[j]
    for field, width in enumerate(form.widths, 1):
        record = random_record(dice, form)
        record[field - 1] = dice.pick([2 ** width, 2 ** width, BIG])
        if dice.chance(30):
            record[dice.below(len(record))] = BIG
        step_refused(script, dice, record_line(j, form, record), (26, j))
    show()
    other_records(script, dice, j, form, 22)
    show()
    for record in ([0] * len(form.widths), most(form), random_record(dice, form)):
        step_taken(script, record_line(j, form, record), whole_record(plan, j, form))
        script.say("ticket", j, expect=plan.ticket_answer(j, record))
        script.say("rest", j, expect=plan.rest_answer(j))
        show()


def other_records(script, dice, j, form, number):
    """Records of every other kind, fitting and too wide, records of no kind, and records of a wrong count of values."""
    for other in FORMS:
        if other != form:
            record = random_record(dice, other)
            step_refused(script, dice, record_line(j, other, record), (number, j))
            step_refused(script, dice, record_line(j, other, with_wide(dice, other, record)), (number, j))
    for typ, revision in dice.some(UNLISTED, 3):
        values = [dice.pick([0, BIG])] * dice.pick([0, 1, len(form.widths), MOST_VALUES])
        step_refused(script, dice, words(["record", j, typ, revision] + values), (number, j))
        script.say(words(["record", j, typ, revision] + [0] * (MOST_VALUES + 1)), expect="?")
    for count in (0, len(form.widths) - 1, len(form.widths) + 1):
        script.say(words(["record", j, name(form)] + [0] * count), expect="?")


def kind_steps(script, dice, plan, good, j, show=lambda: None):
    """The product made one of every kind in turn: just too short for it, then just long enough."""
    for form in FORMS:
        short, enough = (formed(plan, good, j, form.typ, form.revision, form.least // 4 - less) for less in (1, 0))
        record = random_record(dice, form)
        script.load(short)
        other_records(script, dice, j, form, 22)
        step_refused(script, dice, record_line(j, form, record), (23, j))
        step_refused(script, dice, record_line(j, form, with_wide(dice, form, record)), (23, j))
        for field in (1, form.time, len(form.widths), len(form.widths) + 1):
            step_refused(script, dice, "field %d %d 0" % (j, field), (23, j))
        read_both(script, plan, short, j, plan.product_length(j), 23, form)
        script.load(enough)
        read_both(script, plan, enough, j, plan.product_length(j), 0, form)
        other_records(script, dice, j, form, 22)
        step_refused(script, dice, record_line(j, form, with_wide(dice, form, record)), (26, j))
        step_taken(script, record_line(j, form, record), whole_record(plan, j, form))
        header = [form.least // 4, plan.ticket[j][1][1], form.revision]
        script.say("ticket", j, expect=plan.read_answer(j, form, header, record))
        script.say("rest", j, expect=plan.product(j, good)[form.end:form.least].hex() or "=")
        for field, value in ((form.time, late_time(dice)), (len(form.widths), dice.below(2 ** form.widths[-1]))):
            first, width = place(form, field)
            step_refused(script, dice, "field %d %d %d" % (j, field, 2 ** width), (26, j))
            step_taken(script, "field %d %d %d" % (j, field, value), (8 * plan.place(j) + first, width))
            record = record_with(record, field, value)
        step_refused(script, dice, "field %d %d 0" % (j, len(form.widths) + 1), (25, j))
        script.say("ticket", j, expect=plan.read_answer(j, form, header, record))
        show()
    for typ, revision in ((22, 0), (22, 4), (23, 1), (23, 3), (0, 2), (21, 2), (24, 2)):
        image = formed(plan, good, j, typ, revision, 8)
        script.load(image)
        read_both(script, plan, image, j, plan.product_length(j), 22, None)
        step_refused(script, dice, "field %d 1 0" % j, (22, j))
        step_refused(script, dice, "record %d %d %d" % (j, typ, revision), (22, j))
        for form in FORMS:
            step_refused(script, dice, record_line(j, form, random_record(dice, form)), (22, j))
        show()


def expiry_steps(script, dice, plan, j, show=lambda: None):
    """Both writes on the plan's own card, ExpiryTime on either side of midnight, at its widest and one more."""
    form, _, record = plan.ticket[j]
    times = (1439, 1440, 2047)
    for time in times:
        step_taken(script, "field %d %d %d" % (j, form.time, time), (8 * plan.place(j) + form.time_bit, 11))
        script.say("ticket", j, expect=plan.ticket_answer(j, record_with(record, form.time, time)))
        show()
    step_refused(script, dice, "field %d %d 2048" % (j, form.time), (26, j))
    for time in times:
        record = record_with(random_record(dice, form), form.time, time)
        step_taken(script, record_line(j, form, record), whole_record(plan, j, form))
        script.say("ticket", j, expect=plan.ticket_answer(j, record))
        show()
    step_refused(script, dice, record_line(j, form, record_with(record, form.time, 2048)), (26, j))
    show()


def late_steps(script, dice, plan, j, time, mark):
    """A late ticket is read, written in another field, in its ExpiryTime and as a whole, and read again."""
    form, _, record = plan.ticket[j]
    record = record_with(record, form.time, time)
    script.say("ticket", j, expect=plan.ticket_answer(j, record, mark))
    for field, value in ((1, 255), (form.time, dice.pick([1439, 1440, 2047]))):
        record = record_with(record, field, value)
        step_taken(script, "field %d %d %d" % (j, field, value))
        script.say("ticket", j, expect=plan.ticket_answer(j, record, mark))
    record = random_record(dice, form)
    step_taken(script, record_line(j, form, record))
    script.say("ticket", j, expect=plan.ticket_answer(j, record, mark))


def night_calls(script):
    """The tickets around midnight with their ends: read, written and read again, by field and by record."""
    plan = night_plan()
    script.load(plan.image())
    for j in sorted(plan.ticket):
        form, header, record = plan.ticket[j]
        _, time, end = NIGHT[(j - 1) % len(NIGHT)]
        zeros = [0] * len(form.widths)
        at_zero = words([0, 0, form.typ] + header + zeros + [end - time, 0, 1])
        at_time = words([0, 0, form.typ] + header + record + [end, 0, 1])
        script.say("ticket", j, expect=at_time)
        for text, expect in (("field %d %d 0" % (j, form.time), at_zero),
                             ("field %d %d %d" % (j, form.time, time), at_time),
                             (record_line(j, form, zeros), at_zero), (record_line(j, form, record), at_time)):
            step_taken(script, text)
            script.say("ticket", j, expect=expect)


def kinds_calls(script, dice, show=lambda: None):
    """Every kind on one card: all reads with every byte of the buffer, then all steps of each, one after the other."""
    plan = kinds_plan()
    good = plan.image()
    script.load(good)
    script.say("list", expect=plan.listing())
    for j in sorted(plan.ticket):
        buffer_calls(script, dice, plan, j)
    for j in sorted(plan.ticket):
        script.load(good)
        field_steps(script, dice, plan, j)
        show()
        record_steps(script, dice, plan, j)
        show()
    for j in (1, 3, 5, 7):
        kind_steps(script, dice, plan, good, j)
        show()


def mark_steps(script, dice, plan, j, show=lambda: None):
    """28 and 27 at their boundaries; every mark on every mark."""
    sectors, _ = plan.chain[j]
    last, S, good = sectors[-1], plan.S, plan.image()
    place = (8 * plan.table_place() + psi(S) * (last - 1), psi(S))
    for element, mark in ((last, 0), (S - 1, 1), (S - 2, 2)):
        image = element_set(plan, good, last, element)
        for wanted in (1, 2):
            script.load(image)
            for wrong in dice.some([0, 3, 4, 255, 256 + 1, 256 + 2, 2 ** 32 + 1, BIG], 3):
                step_refused(script, dice, "mark %d %d" % (j, wrong), (28, j))
            if mark == 2 and wanted == 1:
                step_refused(script, dice, "mark %d 1" % j, (27, j))
            else:
                step_taken(script, "mark %d %d" % (j, wanted), place)
                if mark == wanted and bytes(script.talk.image) != image:
                    script.wrong.append(("mark %d %d" % (j, wanted), "bytes changed", "a mark already set"))
            show()
            script.say("chain", j, expect=words([0, 0, max(mark, wanted), len(sectors)] + sectors))


def order_steps(script, dice, plan, good, j, show=lambda: None):
    """Several of 27, 22, 23, 25 and 26 at once, on a late ticket."""
    own, _, _ = plan.ticket[j]
    last, S = plan.chain[j][0][-1], plan.S
    for _ in range(6):
        time = late_time(dice)
        image, form = several_forms(dice, plan, good, j, time)
        mark = BLOCKED if dice.chance(40) else dice.pick([FRESH, USED])
        image = element_set(plan, image, last, {FRESH: last, USED: S - 1, BLOCKED: S - 2}[mark])
        number = 27 if mark == BLOCKED else form
        script.load(image)
        count = len(own.widths)
        for field, value, wrong in ((0, 0, 25), (count + 1, BIG, 25), (dice.between(1, count), BIG, 26)):
            step_refused(script, dice, "field %d %d %d" % (j, field, value), (number or wrong, j))
        record = random_record(dice, own)
        step_refused(script, dice, record_line(j, own, with_wide(dice, own, record)), (number or 26, j))
        other = dice.pick([other for other in FORMS if other != own])
        foreign = random_record(dice, other)
        for values in (foreign, with_wide(dice, other, foreign)):
            step_refused(script, dice, record_line(j, other, values), (27 if mark == BLOCKED else 22, j))
        step_refused(script, dice, "record %d %d %d" % ((j,) + dice.pick(UNLISTED)), (27 if mark == BLOCKED else 22, j))
        step_refused(script, dice, "mark %d %d" % (j, dice.pick([0, 3])), (28, j))
        if mark == BLOCKED:
            step_refused(script, dice, "mark %d 1" % j, (27, j))
            step_taken(script, "mark %d 2" % j)
            step_refused(script, dice, "field %d 1 0" % j, (27, j))
            step_refused(script, dice, record_line(j, own, record), (27, j))
        elif form:
            step_refused(script, dice, "field %d %d 0" % (j, own.time), (form, j))
            step_refused(script, dice, record_line(j, own, record), (form, j))
        else:
            late_steps(script, dice, plan, j, time, mark)
        show()


def random_step(dice, plan, j=None):
    """Any step, mostly one that can be taken."""
    if j is None:
        j = dice.pick(sorted(plan.chain) + wrong_entries(dice, plan)[:2] + tickets(plan) * 3)
    form = plan.ticket[j][0] if j in plan.ticket else dice.pick(FORMS)
    count, kind = len(form.widths), dice.below(10)
    if kind < 5:
        field = dice.between(1, count) if dice.chance(90) else dice.pick([0, count + 1, BIG])
        width = form.widths[field - 1] if 1 <= field <= count else 8
        value = dice.pick([0, 2 ** width - 1, dice.below(2 ** width), dice.below(2 ** width), 2 ** width])
        if field == form.time:
            value = dice.pick([0, 1439, 1440, 2047, 2048, dice.below(2048)])
        return "field %d %d %d" % (j, field, value)
    if kind < 8:
        if dice.chance(5):
            return words(["record", j] + list(dice.pick(UNLISTED)) + [dice.below(9)] * dice.between(0, MOST_VALUES))
        if dice.chance(10):
            form = dice.pick(FORMS)
        record = random_record(dice, form)
        if dice.chance(20):
            record[dice.below(len(record))] = dice.pick([256, 65536, 2 ** 32, BIG])
        return record_line(j, form, record)
    return "mark %d %d" % (j, dice.pick([1, 1, 1, 1, 2, 0, 3]))


def random_read(dice, plan):
    """Any read."""
    j = dice.pick(sorted(plan.chain) + wrong_entries(dice, plan) + tickets(plan) * 3)
    kind = dice.pick(["entry", "chain", "ticket", "rest", "ticket", "rest"])
    if kind in ("entry", "chain") or dice.chance(50):
        return "%s %d" % (kind, j)
    size = plan.product_length(j) if j in plan.chain else plan.B
    return "%s %d %d" % (kind, j, dice.pick([0, size - 1, size, size, size + 1, 65536]))


def random_jobs(dice, plan):
    """Jobs on distinct products, each a list of steps."""
    products = dice.some(sorted(plan.chain), dice.between(1, 6))
    return [[random_step(dice, plan, j) for _ in range(dice.between(1, 6))] for j in products]


def mixed(dice, jobs):
    """A mix that keeps each job's own order: pairs of job and step number."""
    turns = dice.shuffled(i for i, job in enumerate(jobs) for _ in job)
    reached = [0] * len(jobs)
    mix = []
    for i in turns:
        mix.append((i, reached[i]))
        reached[i] += 1
    return mix


def kind_job(dice, plan, j):
    """A job on one ticket of any kind: its steps with the answer each must have, and the record and mark at its end."""
    form, _, _ = plan.ticket[j]
    other = dice.pick([other for other in FORMS if other != form])
    record, last, time = random_record(dice, form), len(form.widths), late_time(dice)
    foreign = random_record(dice, other)
    steps = [(record_line(j, form, record), "0 0"), (record_line(j, other, foreign), "22 %d" % j),
             ("field %d %d %d" % (j, form.time, time), "0 0"), ("field %d %d 2048" % (j, form.time), "26 %d" % j),
             ("field %d %d 0" % (j, last + 1), "25 %d" % j), ("field %d %d 7" % (j, last), "0 0"),
             (record_line(j, form, with_wide(dice, form, record)), "26 %d" % j), ("mark %d 3" % j, "28 %d" % j)]
    record = record_with(record_with(record, form.time, time), last, 7)
    mark = dice.pick([1, 2])
    steps.append(("mark %d %d" % (j, mark), "0 0"))
    if mark == BLOCKED:
        steps += [("mark %d 1" % j, "27 %d" % j), (record_line(j, other, foreign), "27 %d" % j), ("field %d 1 0" % j, "27 %d" % j)]
    else:
        steps.append(("field %d 1 0" % j, "0 0"))
        record = record_with(record, 1, 0)
    return steps, record, mark


def mixed_kinds(script, dice):
    """Jobs on tickets of every kind, mixed in two ways and whole one after the other: the same answers and the same image."""
    plan = kinds_plan()
    jobs = [kind_job(dice, plan, j) for j in sorted(plan.ticket)]
    steps = [job[0] for job in jobs]
    whole = [(i, turn) for i in dice.shuffled(range(len(jobs))) for turn in range(len(steps[i]))]
    image = None
    for mix in (mixed(dice, steps), mixed(dice, steps), whole):
        script.load(plan.image())
        for i, turn in mix:
            text, expect = steps[i][turn]
            script.say(text, expect=expect)
        image = script.say("bytes", expect=image)
    for j, (_, record, mark) in zip(sorted(plan.ticket), jobs):
        script.say("ticket", j, expect=plan.ticket_answer(j, record, mark))
        script.say("rest", j, expect=plan.rest_answer(j))
