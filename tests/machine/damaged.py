"""Writes records that are cut short or have one byte changed, each with a tick and the answer that must come, worked out here by a
reader of its own. The lines are for compare.c."""
import random

SEGMENTS, TICKS, STEPS = 1024, 1_008_000_000, 16


class Refused(Exception):
    pass


def number(data, at):
    value = 0
    for place in range(5):
        if at + place >= len(data):
            raise Refused(25)
        byte = data[at + place]
        value |= (byte & 127) << (7 * place)
        if byte < 128:
            if byte == 0 and place > 0:
                raise Refused(26)
            return value, at + place + 1
    raise Refused(26)


def segments(data):
    if not data:
        raise Refused(25)
    if not 1 <= data[0] <= 127:
        raise Refused(27)
    count, at = number(data, 1)
    if count > SEGMENTS:
        raise Refused(20)
    found, last, sum_of_ticks = [], None, 0
    for _ in range(count):
        step, at = number(data, at)
        if step >= STEPS:
            raise Refused(21)
        ticks, at = number(data, at)
        if ticks == 0 or step == last:
            raise Refused(22)
        sum_of_ticks += ticks
        if sum_of_ticks > TICKS:
            raise Refused(23)
        found.append((step, ticks))
        last = step
    if at != len(data):
        raise Refused(28)
    return found


def answer(data, tick):
    try:
        for step, ticks in segments(data):
            if tick < ticks:
                return step
            tick -= ticks
        return 29
    except Refused as refused:
        return refused.args[0]


def groups(value):
    out = []
    while value >= 128:
        out.append(128 | value & 127)
        value >>= 7
    return bytes(out + [value])


def written(kind, plan):
    return bytes([kind]) + groups(len(plan)) + b"".join(groups(step) + groups(ticks) for step, ticks in plan)


def main():
    pick = random.Random(4)
    plans = [[(0, 5040), (1, 5040), (0, 5040), (1, 5040)], [], [(15, TICKS)]]
    for size in (1, 2, 5, 9):
        plan = []
        for i in range(size):
            plan.append((pick.choice([s for s in range(STEPS) if not plan or s != plan[-1][0]]), pick.choice([1, 127, 128, 5040, 16383, 16384, 2_000_000])))
        plans.append(plan)
    for plan in plans:
        record = written(pick.choice([1, 2, 127]), plan)
        total = sum(ticks for _, ticks in plan)
        marks = sorted({0, 1, total // 2, max(total - 1, 0), total, total + 1, 2**64 - 1})
        variants = [record] + [record[:n] for n in range(len(record))] + [record + b"\0"]
        for place in range(len(record)):
            for byte in range(256):
                variants.append(record[:place] + bytes([byte]) + record[place + 1:])
        for data in variants:
            tick = pick.choice(marks)
            print(data.hex() or "-", tick, answer(data, tick))


main()
