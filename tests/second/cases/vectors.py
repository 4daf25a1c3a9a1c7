"""The choice of commands that is kept with its answers, group by group."""

from . import between, calls, faults, mix, values
from .cards import Plan, crowded_plan, full_plan, kinds_plan, night_plan, random_plan, roomy_plan, smallest_plan
from .dice import Dice
from .forms import FORMS, UNLISTED

SECTORS = (4, 5, 6, 7, 8, 9, 15, 16, 17, 24, 31, 32, 33, 63, 64, 65, 127, 128, 129, 237, 255)


def example_plan():
    """The worked example: S 16, B 64, e# 2, chain 1, 3 used and chain 2 fresh."""
    plan = Plan(16, 64, 2)
    plan.entry = {1: [0, 1, 23, 1, 0, 0, 1], 2: [0, 1, 23, 1, 0, 0, 1]}
    plan.chain = {1: ([1, 3], 1), 2: ([2], 0)}
    return plan


def with_tickets(dice, count, small, sparse, sizes=None):
    """Cards that hold at least one ticket."""
    plans = []
    while len(plans) < count:
        plan = random_plan(dice, small=small, sparse=sparse, sizes=sizes)
        if plan.ticket:
            plans.append(plan)
    return plans


def crc_group(script, dice):
    values.crc_calls(script, dice, 40)


def dates_group(script, dice):
    values.date_calls(script, dice, 100)


def records_group(script, dice):
    values.record_group(script, dice, 10, SECTORS)
    for _ in range(150):
        mix.random_value_call(script, dice)


def check_group(script, dice):
    script.say("image 0", expect="0")
    script.say("check", expect="1 0")
    for text in ("image 65536", "image", "image x", "at 0 00", "at 0", "check 1", "at 1 -", "bytes 0", "unknown", ""):
        script.say(text, expect="?")
    script.say("bytes", expect="-")
    script.say("at 0 -", expect="ok")
    script.say("image 65535", expect="65535")
    script.say("at 65534 ffff", expect="?")
    script.say("at 65533 ffff", expect="ok")
    script.say("at 0 ffff0100", expect="ok")
    script.say("check", expect="5 0")
    script.say("at 4 1800", expect="ok")
    script.say("check", expect="6 0")
    plans = [random_plan(dice, sizes=(4, 32, 1)), random_plan(dice, sizes=(9, 40, 2))]
    plans += [random_plan(dice, small=True) for _ in range(5)]
    plans += [random_plan(dice, sparse=True) for _ in range(8)]
    plans += [random_plan(dice, sparse=True, sizes=sizes) for sizes in
              ((16, 64, 5), (17, 64, 5), (24, 128, 14), (44, 252, 41), (32, 100, 10), (33, 255, 30))]
    for plan in plans:
        for image, answer in faults.boundary_cases(dice, plan):
            if len(image) < 3000 or len(image) == len(plan.image()):
                script.load(image)
                script.number("check", expect=answer)
    for plan in [roomy_plan(dice, sizes, sparse=True) for sizes in ((16, 64, 5), (7, 255, 4))]:
        for image, answer in list(faults.every_digit_cases(dice, plan, plan.image())) + list(faults.dataset_cases(dice, plan)):
            script.load(image)
            script.number("check", expect=answer)
    plan = Plan(9, 48, 3)
    for image, answer in faults.single_bits(dice, plan, plan.image(), range(40)):
        script.load(image)
        script.number("check", expect=answer)
    for image, answer in list(faults.smallest_cases(dice)) + list(faults.largest_cases(dice)):
        script.load(image)
        script.number("check", expect=answer)
    for _ in range(6):
        for image, answer in faults.directory_size_cases(dice):
            if len(image) < 2500:
                script.load(image)
                script.number("check", expect=answer)
    for plan in [random_plan(dice, small=True) for _ in range(12)] + [random_plan(dice, sparse=True, sizes=(17, 80, 7))]:
        for _ in range(12):
            image, answer = faults.several_faults(dice, plan)
            script.load(image)
            script.number("check", expect=answer)
    for plan in [random_plan(dice, small=True) for _ in range(6)]:
        for _ in range(15):
            script.load(faults.mutated(dice, plan))
            script.say("check")
    for _ in range(80):
        script.load(faults.tangled(dice, sparse=True))
        script.say("check")
    for _ in range(20):
        script.load(mix.raw_bytes(dice))
        script.say("check")


def list_group(script, dice):
    plan = example_plan()
    script.load(plan.image())
    script.say("list", expect=["card 16 64 2 A", "1 23 used 1 3", "2 23 fresh 2"])
    for image, _ in faults.boundary_cases(dice, plan, (10, 11)):
        script.load(image)
        script.say("list")
    script.load(faults.byte_set(plan.image(), plan.table_place(), 0x33))
    script.say("list", expect="refused 11 2")
    script.say("list 1", expect="?")
    for plan in [random_plan(dice, sparse=True) for _ in range(20)] + [crowded_plan(dice), full_plan(dice)]:
        script.load(plan.image())
        script.say("list", expect=plan.listing())
    for _ in range(40):
        script.load(faults.tangled(dice, sparse=True))
        script.say("list")
    for image, _ in list(faults.smallest_cases(dice)) + list(faults.largest_cases(dice)):
        if len(image) <= 60439:
            script.load(image)
            script.say("list")
    plan = random_plan(dice, small=True)
    for number in faults.ORDER:
        for image, answer in dice.some(faults.BY_NUMBER[number](dice, plan, plan.image()), 3):
            script.load(image)
            script.say("list", expect="refused %d %d" % answer if answer[0] else None)


def reads_group(script, dice):
    script.load(b"")
    for text in ("shell", "directory", "table", "entry 1", "chain 1", "ticket 1", "ticket 1 0"):
        script.number(text, expect=(1, 0))
    script.say("rest 1", expect="-")
    script.say("buffer 64", expect="a5" * 64)
    for text in ("ticket", "ticket 1 65537", "ticket 1 1 1", "rest", "rest 1 65537", "buffer", "buffer 65537", "shell 1",
                 "directory 1", "table 1", "entry", "entry 1 1", "chain", "chain x", "entry 18446744073709551616"):
        script.say(text, expect="?")
    script.say("buffer 0", expect="-")
    plans = [smallest_plan(dice, form) for form in FORMS] + with_tickets(dice, 8, True, False)
    plans += with_tickets(dice, 12, False, True)
    plans += with_tickets(dice, 1, False, True, (237, 255, 1)) + [crowded_plan(dice), night_plan(), kinds_plan()]
    for plan in plans:
        good = plan.image()
        script.load(good)
        calls.whole_reads(script, plan)
        for j in dice.some(sorted(plan.chain), 6) + [max(plan.chain)]:
            calls.product_reads(script, plan, j)
        calls.entry_calls(script, dice, plan)
        for j in dice.some(calls.tickets(plan), 2):
            script.load(good)
            calls.buffer_calls(script, dice, plan, j, plan.product_length(j) < 600)
            calls.ticket_calls(script, dice, plan, good, j, plan.product_length(j) < 100)
    for plan in plans[:6]:
        calls.refused_calls(script, dice, plan, faults.mistyped(dice, plan.image()), 12)
        for number in faults.ORDER:
            for image, answer in dice.some(faults.BY_NUMBER[number](dice, plan, plan.image()), 1):
                script.load(image)
                for text in dice.some(["shell", "directory", "table", "entry 1", "chain 1", "ticket 1", "ticket 0"], 3):
                    script.number(text, expect=answer if answer[0] else None)
                script.say(dice.pick(["rest 1 200", "rest 1", "ticket 1 200"]))
                script.say("buffer 203")
    plan = full_plan(dice)
    script.load(plan.image())
    script.number("ticket 1 59669", expect=(21, 1))
    script.number("rest 1 59669")
    script.say("buffer 64", expect="a5" * 64)
    calls.product_reads(script, plan, 1)
    plan = with_tickets(dice, 1, True, False)[0]
    script.load(plan.image())
    script.number("ticket", min(plan.ticket), expect=(0, 0))
    script.say("buffer 65536")


def steps_group(script, dice):
    script.load(b"")
    for text in ["field 1 1 1", "mark 1 1"] + [calls.record_line(1, form, [0] * len(form.widths)) for form in FORMS]:
        script.say(text, expect="1 0")
    for typ, revision in UNLISTED:
        script.say("record 1", typ, revision, expect="1 0")
    for text in ("field", "field 1 1", "field 1 1 1 1", "mark 1", "mark 1 1 1", "record", "record 1", "record 1 22", "mark 1 x",
                 "record 1 21", "record x 21 1", "record 1 21 1 x", "record 1 21 18446744073709551616",
                 "record 1 18446744073709551638 1", "field 1 1 18446744073709551616"):
        script.say(text, expect="?")
    for form in FORMS:
        for count in (0, 1, len(form.widths) - 1, len(form.widths) + 1):
            script.say(calls.words(["record 1", form.typ, form.revision] + [0] * count), expect="?")

    def whole():
        script.say("bytes")

    calls.night_calls(script)
    whole()
    calls.kinds_calls(script, dice, whole)
    for _ in range(4):
        calls.mixed_kinds(script, dice)
    small = [smallest_plan(dice, form) for form in FORMS] + with_tickets(dice, 2, True, False, (5, 32, 1))
    small += with_tickets(dice, 5, True, False)
    for plan in small:
        good = plan.image()
        for j in dice.some(calls.tickets(plan, writable=True), 1):
            script.load(good)
            calls.expiry_steps(script, dice, plan, j, whole)
            calls.field_steps(script, dice, plan, j, 6, whole)
            calls.record_steps(script, dice, plan, j, whole)
        for j in dice.some(sorted(plan.chain), 2):
            calls.mark_steps(script, dice, plan, j, whole)
        for j in dice.some(calls.tickets(plan), 1):
            calls.order_steps(script, dice, plan, good, j, whole)
        script.load(good)
        calls.entry_calls(script, dice, plan, steps=True)
        whole()
        for _ in range(12):
            script.say(calls.random_step(dice, plan))
        whole()
        for image, number in ((faults.byte_set(good, 2, 0), 2), (faults.mistyped(dice, good), 12)):
            script.load(image)
            for _ in range(4):
                text = calls.random_step(dice, plan)
                script.number(text, expect=(number, 0))
            whole()
    larger = with_tickets(dice, 16, False, True) + with_tickets(dice, 1, False, True, (237, 255, 1))
    larger += [full_plan(dice), crowded_plan(dice)]
    for plan in larger:
        good = plan.image()
        script.load(good)
        script.say("keep")
        for j in dice.some(calls.tickets(plan, writable=True), 1):
            calls.expiry_steps(script, dice, plan, j)
            calls.field_steps(script, dice, plan, j, 5)
            script.say("touched")
            calls.record_steps(script, dice, plan, j)
            script.say("touched")
        for j in dice.some(sorted(plan.chain), 2):
            calls.mark_steps(script, dice, plan, j, lambda: (script.say("table"), script.say("touched")))
        for j in dice.some(calls.tickets(plan), 1):
            calls.order_steps(script, dice, plan, good, j)
        script.load(good)
        for _ in range(20):
            text = calls.random_step(dice, plan)
            script.say(text)
            if dice.chance(40):
                script.say("touched")
                script.say(calls.random_read(dice, plan))
        if script.has("list"):
            script.say("list")


def touched_group(script, dice):
    script.say("touched 1", expect="?")
    script.say("keep 1", expect="?")
    script.load(b"")
    script.say("keep", expect="ok")
    script.say("touched", expect="1 0")
    plans = with_tickets(dice, 2, True, False, (4, 32, 1)) + with_tickets(dice, 4, True, False)
    plans += with_tickets(dice, 12, False, True) + with_tickets(dice, 1, False, True, (237, 255, 1))
    for plan in plans:
        between.touched_calls(script, dice, plan)


IN_ORDER = (("crc", crc_group), ("dates", dates_group), ("records", records_group), ("check", check_group),
            ("list", list_group), ("reads", reads_group), ("steps", steps_group), ("touched", touched_group))


def all_groups(script):
    """The commands of every group that the script wants."""
    for name, group in IN_ORDER:
        if script.has(name):
            group(script, Dice("vectors", name))
