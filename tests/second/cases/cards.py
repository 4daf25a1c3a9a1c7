"""Good cards over the whole range of sizes and chains."""

from model.bits import write_bits
from model.crc import crc
from model.fields import ENTRY, HEAD, HEADER, SHELL, TAIL, encode
from model.table import BLOCKED, FRESH, USED, encode_table, psi, table_length

from . import isrn
from .forms import FORMS, most, packed, unpacked

LARGEST_S, LARGEST_B = 237, 255

# EXP, ExpiryTime and the end of tickets around midnight, the latest of all in front.
NIGHT = ((0, 2047, 23595007), (0, 1440, 23594400), (0, 1439, 23594399), (1, 1440, 2880))


class Plan:
    """A card as it is meant, before it is bytes."""

    def __init__(self, S, B, entries, length=6, copy=0):
        self.S, self.B, self.entries, self.length, self.copy = S, B, entries, length, copy
        # IIN, OID, ISSN, CHD, FVC, KSC, KVC, reserved, EXP of the shell.
        self.issuer = [0x633597, 0x1234, 0x1234567, 7, 1, 2, 3, 0, 0]
        self.revision = 1
        self.head = [0, 0, 1]
        self.tail = [0, 0, 0, 0]
        self.entry = {}
        self.chain = {}
        self.loose = {}
        self.bytes = {}
        self.ticket = {}
        self.after_shell = b""
        self.seal = b""
        self.other_copy = b""

    def sctl(self):
        """The bytes of the chain table."""
        return table_length(self.S)

    def table_end(self):
        """The directory's bytes up to the end of the chain table."""
        return 2 + 5 * self.entries + self.sctl()

    def place(self, sector):
        """The first byte of a sector in the image."""
        return 4 + sector * self.B

    def directory_place(self):
        """The first byte of the copy in force in the image."""
        return self.place(self.S - 2 + self.copy)

    def entry_place(self, j):
        """The first byte of entry j in the image."""
        return self.directory_place() + 2 + 5 * (j - 1)

    def table_place(self):
        """The first byte of the chain table in the image."""
        return self.directory_place() + 2 + 5 * self.entries

    def product_length(self, j):
        """The bytes of entry j's product."""
        return len(self.chain[j][0]) * self.B

    def empty_entries(self):
        """The numbers of the empty entries."""
        return [j for j in range(1, self.entries + 1) if j not in self.entry]

    def free_sectors(self):
        """The sectors in no chain."""
        taken = {sector for sectors, _ in self.chain.values() for sector in sectors}
        return [sector for sector in range(1, self.S - 2) if sector not in taken]

    def elements(self):
        """The chain table's elements."""
        elements = [self.loose.get(sector, 0) for sector in range(1, self.S - 2)]
        for sectors, mark in self.chain.values():
            for sector, following in zip(sectors, sectors[1:]):
                elements[sector - 1] = following
            last = sectors[-1]
            elements[last - 1] = {FRESH: last, USED: self.S - 1, BLOCKED: self.S - 2}[mark]
        return elements

    def shell_values(self):
        """The sixteen values of the shell."""
        head = [self.length, 0, self.revision]
        return head + self.issuer + [self.B, self.S, self.entries, self.sctl()]

    def dataset(self):
        """The bytes of the shell's dataset."""
        covered = filled(encode(SHELL, self.shell_values()), 4 * self.length - 2)
        return covered + crc(covered).to_bytes(2, "big")

    def directory(self):
        """The sector of the copy in force."""
        data = bytearray(encode(HEAD, self.head))
        for j in range(1, self.entries + 1):
            data += encode(ENTRY, self.entry.get(j, [0] * 7))
        table = bytearray(self.sctl())
        encode_table(self.S, self.elements(), table)
        data += table + encode(TAIL, self.tail) + self.seal
        return filled(data, self.B)

    def image(self):
        """The bytes of the card."""
        shell = filled(self.dataset() + self.after_shell, self.B)
        sectors = [shell] + [filled(self.bytes.get(n, b""), self.B) for n in range(1, self.S - 2)]
        copies = [filled(self.other_copy, self.B)] * 2
        copies[self.copy] = self.directory()
        body = b"".join(sectors + copies)
        return (4 + len(body)).to_bytes(2, "big") + bytes([1, self.copy]) + body

    def listing(self):
        """The listing's lines."""
        lines = ["card %d %d %d %s" % (self.S, self.B, self.entries, "AB"[self.copy])]
        for j in sorted(self.chain):
            sectors, mark = self.chain[j]
            names = ["fresh", "used", "blocked"]
            lines.append(" ".join(map(str, [j, self.entry[j][2], names[mark]] + sectors)))
        return lines

    def ticket_answer(self, j, record=None, mark=None):
        """The answer to `ticket` with a buffer that holds the product, after these changes."""
        form, header, own_record = self.ticket[j]
        return self.read_answer(j, form, header, own_record if record is None else record, mark)

    def read_answer(self, j, form, header, record, mark=None):
        """The answer to `ticket` where the product has this form, header and record."""
        sectors, own_mark = self.chain[j]
        day = self.entry[j][6] or 16384
        end = [day * 1440 + record[form.time - 1], own_mark if mark is None else mark, len(sectors)]
        return " ".join(map(str, [0, 0, form.typ] + header + record + end))

    def rest_answer(self, j):
        """The answer to `rest` with a buffer that holds the product."""
        form, header, _ = self.ticket[j]
        product = b"".join(filled(self.bytes.get(n, b""), self.B) for n in self.chain[j][0])
        return product[form.end:4 * header[0]].hex() or "="

    def product(self, j, image):
        """The bytes of entry j's product in an image of this card."""
        return b"".join(bytes(image[self.place(n):self.place(n + 1)]) for n in self.chain[j][0])

    def chain_answer(self, j):
        """The answer to `chain`."""
        sectors, mark = self.chain[j]
        return " ".join(map(str, [0, 0, mark, len(sectors)] + sectors))


def filled(data, length):
    """The data, cut or filled with zeros to a length."""
    return bytes(data[:length]) + bytes(length - len(data[:length]))


def most_entries(S, B):
    """The largest e# that these sizes allow, 0 if none."""
    return max(0, min(S - 3, (B - 16 - table_length(S)) // 5))


def random_record(dice, form):
    """Values that fit the form's fields, often at an end of the range or around midnight."""
    record = [dice.pick([0, top, dice.between(0, top), dice.between(0, top)]) for top in most(form)]
    if dice.chance(25):
        record[form.time - 1] = dice.pick([1439, 1440])
    return record


def record_with(record, number, value):
    """The record with another value in one field."""
    return record[:number - 1] + [value] + record[number:]


def random_entry(dice, typ=None):
    """Seven values of an entry that is not empty."""
    typ = typ if typ is not None else dice.between(0, 31)
    exp = dice.pick([0, 1, 16383, dice.between(0, 16383)])
    values = [dice.below(2), dice.between(1, 8191), typ, dice.below(32), dice.below(2), dice.below(2), exp]
    return values


def random_sizes(dice, small=False):
    """S, B and e#, often at their ends."""
    if small:
        S = dice.pick([4, 4, 5, 6, 7, 8, 9, 9, dice.between(4, 12)])
    else:
        S = dice.pick([4, 5, 7, 8, 9, 16, 17, 31, 32, 33, 63, 64, 65, 127, 128, 129, 236, 237,
                       dice.between(4, 40), dice.between(4, 40), dice.between(4, 24),
                       dice.between(4, 24), dice.between(4, 237)])
    least = max(32, 16 + 5 + table_length(S))
    if small:
        wish = least + 5 * dice.between(0, 3)
        B = min(LARGEST_B, max(least, dice.pick([least, wish, wish, wish + 1])))
    else:
        B = dice.pick([least, min(least + 1, 255), 255, 64, 128, dice.between(least, 255),
                       dice.between(least, min(255, least + 40))])
        B = max(B, least)
    most = most_entries(S, B)
    entries = dice.pick([1, most, most, dice.between(1, most), dice.between(1, most)])
    return S, B, entries


def random_plan(dice, small=False, sparse=False, tickets=80, sizes=None):
    """A card with random chains, marks and products."""
    S, B, entries = sizes if sizes else random_sizes(dice, small)
    plan = Plan(S, B, entries)
    plan.length = dice.pick([6, min(63, B // 4), dice.between(6, min(63, B // 4))])
    plan.copy = dice.below(2)
    plan.revision = dice.pick([1, 1, 1, 0, 15])
    plan.issuer = isrn.values(isrn.random_number(dice))
    plan.issuer += [dice.below(256), dice.below(256), dice.below(256), dice.below(4), dice.below(16384)]
    plan.head = [dice.below(64), dice.below(64), dice.below(16)]
    plan.tail = [dice.below(256), dice.below(16), dice.below(16), dice.below(2 ** 32)]
    random_chains(dice, plan)
    if not sparse:
        plan.loose = {n: dice.below(2 ** psi(S)) for n in range(1, S - 2)}
        plan.bytes = {n: dice.data(B) for n in range(1, S - 2)}
        plan.after_shell = dice.data(B)
        plan.seal = dice.data(B)
        plan.other_copy = dice.data(B)
    else:
        for sectors, _ in plan.chain.values():
            for n in sectors:
                plan.bytes[n] = thin_sector(dice, B)
    for j in plan.chain:
        if dice.chance(tickets):
            random_ticket(dice, plan, j)
    return plan


def roomy_plan(dice, sizes, sparse=False):
    """A card with two chains or more and bits after its table's elements, so that it has room for a fault of every number."""
    while True:
        plan = random_plan(dice, sparse=sparse, sizes=sizes)
        if len(plan.chain) > 1:
            return plan


def thin_sector(dice, B):
    """A sector of mostly zeros that still can be told from others."""
    return dice.data(4) + bytes(B - 5) + bytes([dice.below(256)])


def full_plan(dice):
    """The largest card, one ticket in all its sectors."""
    plan = random_plan(dice, sizes=(LARGEST_S, LARGEST_B, 1), sparse=True)
    plan.entry = {1: random_entry(dice)}
    plan.chain = {1: ([1] + dice.shuffled(range(2, LARGEST_S - 2)), dice.pick([FRESH, USED]))}
    plan.bytes = {n: thin_sector(dice, plan.B) for n in range(1, LARGEST_S - 2)}
    plan.ticket = {}
    random_ticket(dice, plan, 1)
    return plan


def crowded_plan(dice):
    """The most entries a card can have, each with a product of one sector, every kind in turn."""
    plan = random_plan(dice, sizes=(44, 252, 41), sparse=True)
    plan.entry = {j: random_entry(dice) for j in range(1, 42)}
    plan.chain = {j: ([j], dice.pick([FRESH, USED, BLOCKED])) for j in range(1, 42)}
    plan.bytes = {n: thin_sector(dice, plan.B) for n in range(1, 42)}
    plan.ticket = {}
    for j in range(1, 42):
        random_ticket(dice, plan, j, FORMS[j % len(FORMS)])
    return plan


def night_plan():
    """A ticket of one sector for each kind and each end around midnight."""
    plan = Plan(20, 112, len(FORMS) * len(NIGHT))
    for j in range(1, plan.entries + 1):
        form, (exp, time, _) = FORMS[(j - 1) // len(NIGHT)], NIGHT[(j - 1) % len(NIGHT)]
        plan.entry[j] = [0, 1, form.typ, 1, 0, 0, exp]
        plan.chain[j] = ([j], FRESH)
        plan.bytes[j] = bytes(plan.B)
        record = record_with([0] * len(form.widths), form.time, time)
        put_ticket(plan, j, form, [form.least // 4, 0, form.revision], record)
    return plan


def kinds_plan():
    """Every kind twice, no two bytes of a product alike: with the least dataset, and with one block more that ends the product."""
    plan = Plan(12, 64, 8)
    for j in range(1, plan.entries + 1):
        form = FORMS[(j - 1) // 2]
        plan.entry[j] = [0, 1, form.typ, 1, 0, 0, 100 * j]
        plan.chain[j] = ([j], USED)
        plan.bytes[j] = bytes((32 * j + i) % 256 for i in range(plan.B))
        header = [form.least // 4 if j % 2 else plan.B // 4, j, form.revision]
        put_ticket(plan, j, form, header, unpacked(form, plan.bytes[j][2:form.end]))
    return plan


def smallest_plan(dice, form):
    """The smallest card, with one ticket of this form."""
    plan = random_plan(dice, sizes=(4, 32, 1))
    plan.entry = {1: random_entry(dice)}
    plan.chain = {1: ([1], dice.pick([FRESH, USED]))}
    random_ticket(dice, plan, 1, form)
    return plan


def random_chains(dice, plan):
    """Fill entries and chains; free sectors, also those of empty entries, continue them."""
    full = dice.pick([100, 80, 60, 40])
    for j in range(1, plan.entries + 1):
        if dice.chance(full):
            plan.entry[j] = random_entry(dice)
    free = dice.shuffled(n for n in range(1, plan.S - 2) if n not in plan.entry)
    if dice.chance(15):
        free.sort()
    greedy = dice.chance(15)
    for j in dice.shuffled(sorted(plan.entry)):
        more = dice.pick([0, 1, 1, 2, 3, dice.between(0, 6)])
        if greedy:
            more = len(free)
        taken, free = free[:more], free[more:]
        plan.chain[j] = ([j] + taken, dice.pick([FRESH, FRESH, USED, USED, BLOCKED]))


def random_ticket(dice, plan, j, form=None):
    """Make entry j a ticket that can be read, no zeros after its fixed fields."""
    form = dice.pick(FORMS) if form is None else form
    plan.entry[j] = random_entry(dice, form.typ)
    plan.bytes[j] = plan.bytes[j][:form.end] + dice.data(3) + plan.bytes[j][form.end + 3:]
    least, blocks = form.least // 4, min(63, plan.product_length(j) // 4)
    header = [dice.pick([least, blocks, dice.between(least, blocks)]), dice.below(64), form.revision]
    put_ticket(plan, j, form, header, random_record(dice, form))


def put_ticket(plan, j, form, header, record):
    """Let entry j's product hold this header and this record."""
    plan.ticket[j] = (form, header, record)
    plan.bytes[j] = encode(HEADER, header) + packed(form, record) + plan.bytes[j][form.end:]


def element_set(plan, image, sector, element):
    """The image with one table element changed in the copy in force."""
    image = bytearray(image)
    width = psi(plan.S)
    write_bits(image, 8 * plan.table_place() + width * (sector - 1), width, element)
    return bytes(image)


def entry_set(plan, image, j, values):
    """The image with one entry changed in the copy in force."""
    image = bytearray(image)
    place = plan.entry_place(j)
    image[place:place + 5] = encode(ENTRY, values)
    return bytes(image)


def product_bits_set(plan, image, j, first, width, value):
    """The image with bits of entry j's first sector changed."""
    image = bytearray(image)
    write_bits(image, 8 * plan.place(j) + first, width, value)
    return bytes(image)
