#!/usr/bin/env python3
"""Prints the cases of crates/edges: every operation on edge values, and what the public C-SKY V2 manual says comes
of it. It uses none of the bench's code or definitions; run it as `python3 tests/edges.py > crates/edges/stdin`.

A line is

    NAME A B C  CARRY  R V R V  PC NEXT  RESULT

NAME and A B C are the operation and its operands as they are written (z, x, y, n; 0 where there are fewer). For a
branch A is the displacement in halfwords, with its sign. Each R V is a register and its value; every other register
i starts as A5000000 + i, and where both name one register the second counts. PC is the instruction's own address,
NEXT the one after it. RESULT is one of

    done CARRY PC                    no register and no byte changed
    done CARRY PC register R V       this register changed, and nothing else
    done CARRY PC bytes ADDRESS B..  these bytes changed, from the address on, and nothing else
    breakpoint                       refused, and nothing changed: so too the next three
    misaligned ADDRESS
    absent ADDRESS PART
    read-only ADDRESS PART

All numbers are hexadecimal. Some of it is not the manual's but the bench's own rule (docs/instructions.md and
docs/memory.md): jsr has two bytes, so it links to PC + 2 and not to the printed PC + 4; the low byte lies lowest; and
an access that a node would end by an exception is refused, in which order, at which address and by which part.
"""

MASK = 0xFFFFFFFF
EDGES = [0, 1, 0x7FFFFFFF, 0x80000000, 0xFFFFFFFF]
COUNTS = [0, 1, 31, 32, 63, 64]

# What the program's memory holds: bytes that can be written, then read-only ones of another part, then none, then
# two locked ones and six that can be written.
BANK, STORE, LOCK = 1, 2, 4
CELLS = {}
for at, part, data in [(0x100, 0, "807FFF0001FE"), (0x106, STORE, "7F800080FF"), (0x10E, LOCK, "C3D2"),
                       (0x110, 0, "123456789ABC")]:
    for offset, byte in enumerate(bytes.fromhex(data)):
        CELLS[at + offset] = (byte, part)


def absent_part(address):
    return STORE if 0x106 <= address < 0x10E else BANK


def signed(word):
    return word - 2**32 if word >> 31 else word


# The sum before it is cut to a word: past a word it carries out.
def addc(x, y, c):
    return x + y + c


def shift_left(x, count):
    return 0 if count > 31 else x << count


def shift_right(x, count):
    return 0 if count > 31 else x >> count


# Past 30 only the sign is left.
def shift_right_signed(x, count):
    if count > 30:
        return -1 if x >> 31 else 0
    return signed(x) >> count


# Bit by bit: what leaves on the left comes in on the right. Past 31 the register is cleared.
def rotate_left(x, count):
    if count > 31:
        return 0
    for _ in range(count):
        x = (x << 1 & MASK) | x >> 31
    return x


REGISTER = {
    "addu": lambda x, y: x + y,
    "subu": lambda x, y: x - y,
    "and": lambda x, y: x & y,
    "andn": lambda x, y: x & ~y,
    "or": lambda x, y: x | y,
    "mult": lambda x, y: x * y,
    "ixh": lambda x, y: x + (y << 1),
    "ixw": lambda x, y: x + (y << 2),
}
# The count is the low six bits of y.
SHIFT = {
    "lsl": lambda x, y: shift_left(x, y & 63),
    "lsr": lambda x, y: shift_right(x, y & 63),
    "asr": lambda x, y: shift_right_signed(x, y & 63),
    "rotl": lambda x, y: rotate_left(x, y & 63),
}
# With the constants to try: 0 and 1, 31, and the largest that an instruction holds.
IMMEDIATE = {
    "addi": (lambda x, n: x + n, [1, 31, 4096]),
    "andi": (lambda x, n: x & n, [0, 1, 31, 4095]),
    "lsli": (shift_left, [0, 1, 31]),
    "lsri": (shift_right, [0, 1, 31]),
    "asri": (shift_right_signed, [0, 1, 31]),
    "rotli": (rotate_left, [0, 1, 31]),
    "bclri": (lambda x, n: x & ~(1 << n), [0, 1, 31]),
    "bseti": (lambda x, n: x | 1 << n, [0, 1, 31]),
}
TEST = {
    "btsti": (lambda x, n: x >> n & 1 == 1, [0, 1, 31]),
    "cmplti": (lambda x, n: signed(x) < n, [1, 31, 32, 65536]),
    "cmpnei": (lambda x, n: x != n, [0, 1, 31, 65535]),
}
COMPARE = {
    "cmphs": lambda x, y: x >= y,
    "cmplt": lambda x, y: signed(x) < signed(y),
    "cmpne": lambda x, y: x != y,
}
# How many bytes, and whether the sign fills the rest.
LOAD = {"ld.b": (1, False), "ld.h": (2, False), "ld.w": (4, False), "ld.bs": (1, True), "ld.hs": (2, True)}
STORES = {"st.b": 1, "st.h": 2, "st.w": 4}

flip = 0


def other_carry():
    """0 and 1 in turn, for operations that leave the carry alone or do not look at it."""
    global flip
    flip = 1 - flip
    return flip


def case(name, operands, carry, registers, result, pc=0x1000, length=4):
    a, b, c = (list(operands) + [0, 0, 0])[:3]
    first = registers[0] if registers else (0, 0xA5000000)
    last = registers[-1] if registers else first
    start = f"{first[0]:X} {first[1]:X} {last[0]:X} {last[1]:X}"
    print(f"{name} {a:X} {b:X} {c:X} {carry} {start} {pc:X} {pc + length & MASK:X} {result}")


def done(carry, register=None, pc=0x1004):
    changed = "" if register is None else f" register {register[0]:X} {register[1] & MASK:X}"
    return f"done {int(carry)} {pc:X}{changed}"


def register_cases():
    for name, op in REGISTER.items():
        for x in EDGES:
            for y in EDGES:
                c = other_carry()
                case(name, (1, 2, 3), c, [(2, x), (3, y)], done(c, (1, op(x, y))))
    for c in (0, 1):
        for x in EDGES:
            for y in EDGES:
                total = addc(x, y, c)
                case("addc", (1, 2, 3), c, [(2, x), (3, y)], done(total > MASK, (1, total)))
    for name, op in SHIFT.items():
        for x in EDGES:
            for y in COUNTS + [MASK]:
                c = other_carry()
                case(name, (1, 2, 3), c, [(2, x), (3, y)], done(c, (1, op(x, y))))


def shared_register_cases():
    """The register written is also a source: the old values count."""
    for name, op in list(REGISTER.items()) + list(SHIFT.items()):
        for z, x, y in [(2, 2, 3), (31, 0, 31)]:
            for v, w in [(0x80000000, 1), (MASK, 31)]:
                c = other_carry()
                case(name, (z, x, y), c, [(x, v), (y, w)], done(c, (z, op(v, w))))
        for v in (1, MASK):
            c = other_carry()
            case(name, (15, 15, 15), c, [(15, v)], done(c, (15, op(v, v))))
    for c in (0, 1):
        for z, x, y in [(2, 2, 3), (31, 0, 31)]:
            total = addc(MASK, 31, c)
            case("addc", (z, x, y), c, [(x, MASK), (y, 31)], done(total > MASK, (z, total)))
        for v in (0x7FFFFFFF, 0x80000000):
            total = addc(v, v, c)
            case("addc", (15, 15, 15), c, [(15, v)], done(total > MASK, (15, total)))


def constant_cases():
    for name, (op, constants) in IMMEDIATE.items():
        for x in EDGES:
            for n in constants:
                c = other_carry()
                case(name, (1, 2, n), c, [(2, x)], done(c, (1, op(x, n))))
        c = other_carry()
        case(name, (31, 31, 1), c, [(31, 0x80000001)], done(c, (31, op(0x80000001, 1))))
    for name, (op, constants) in TEST.items():
        for x in EDGES + constants:
            for n in constants:
                case(name, (2, n), other_carry(), [(2, x)], done(op(x, n)))
    for x in EDGES:
        c = other_carry()
        case("mov", (1, 2), c, [(2, x)], done(c, (1, x), 0x1002), length=2)
    case("mov", (31, 31), 1, [(31, 7)], done(1, (31, 7)))
    for n in [0, 1, 31, 65535]:
        for c in (0, 1):
            case("movi", (1, n), c, [], done(c, (1, n)))
            case("movih", (1, n), c, [], done(c, (1, n << 16)))


def compare_cases():
    for name, op in COMPARE.items():
        for x in EDGES:
            for y in EDGES:
                case(name, (2, 3), other_carry(), [(2, x), (3, y)], done(op(x, y), pc=0x1002), length=2)
        for c in (0, 1):
            case(name, (15, 15), c, [(15, 0x80000000)], done(op(0x80000000, 0x80000000), pc=0x1002), length=2)


def jump_cases():
    for x in EDGES + [0x2000, 0x2001]:
        c = other_carry()
        target = x & 0xFFFFFFFE
        case("jmp", (3,), c, [(3, x)], done(c, pc=target), length=2)
        case("jsr", (3,), c, [(3, x)], done(c, (15, 0x1002), target), length=2)
        case("jsr", (15,), c, [(15, x)], done(c, (15, 0x1002), target), length=2)
        case("jmp", (15,), c, [(15, x)], done(c, pc=target), length=2)
    case("jsr", (3,), 1, [(3, 0x2001)], done(1, (15, 0), 0x2000), pc=0xFFFFFFFE, length=2)
    case("bkpt", (), 0, [], "breakpoint", length=2)
    case("bkpt", (), 1, [(15, 1)], "breakpoint", length=2)


def branch_cases():
    taken = {"br": (True, True), "bt": (False, True), "bf": (True, False), "bsr": (True, True)}
    largest = {"br": 15, "bt": 15, "bf": 15, "bsr": 25}
    for name, goes in taken.items():
        for pc in (0x1000, 0, 0xFFFFFFFC):
            top = 2 ** largest[name]
            for halfwords in (0, 1, -1, 511, -512, top - 1, -top) if pc == 0x1000 else (1, -1, -top):
                for c in (0, 1):
                    length = 2 if name != "bsr" and -512 <= halfwords < 512 else 4
                    following = pc + length & MASK
                    there = pc + (halfwords << 1) & MASK if goes[c] else following
                    link = (15, following) if name == "bsr" else None
                    case(name, (halfwords,), c, [], done(c, link, there), pc=pc, length=length)


def first_refusal(address, size, writes):
    if address % size:
        return f"misaligned {address:X}"
    for at in range(address, address + size):
        if at not in CELLS:
            return f"absent {at:X} {absent_part(at):X}"
        if writes and CELLS[at][1]:
            return f"read-only {at:X} {CELLS[at][1]:X}"
    return None


def load(name, z, x, base, n):
    size, has_sign = LOAD[name]
    address = base + n & MASK
    c = other_carry()
    result = first_refusal(address, size, False)
    if result is None:
        found = bytes(CELLS[at][0] for at in range(address, address + size))
        result = done(c, (z, int.from_bytes(found, "little", signed=has_sign)))
    case(name, (z, x, n), c, [(x, base)], result)


def store(name, z, x, base, n, value):
    size = STORES[name]
    address = base + n & MASK
    c = other_carry()
    result = first_refusal(address, size, True)
    if result is None:
        written = (value % 2 ** (8 * size)).to_bytes(size, "little")
        result = done(c) + f" bytes {address:X} " + " ".join(f"{byte:X}" for byte in written)
    case(name, (z, x, n), c, [(x, base), (z, value)], result)


def access_cases():
    places = list(range(0xFC, 0x11C)) + [0, 1, 0x7FFFFFFF, 0x80000000, 0xFFFFFFFC, 0xFFFFFFFF]
    for name, (size, _) in LOAD.items():
        for at in places:
            if at % size == 0 or at in (1, 0x101, 0x102, 0x113, 0xFFFFFFFF):
                load(name, 1, 2, at, 0)
        load(name, 2, 2, 0x100, 8 - size)
        load(name, 1, 2, 0xFFFFFFFC, 0x104)
        load(name, 1, 2, 0xFFFFFFFF, 0x101)
        load(name, 1, 2, 0xFFFFFFFF, 0)
    for name, size in STORES.items():
        for at in places:
            if at % size == 0 or at in (1, 0x101, 0x102, 0x113, 0xFFFFFFFF):
                store(name, 1, 2, at, 0, 0x89ABCDEF)
        for value in EDGES:
            store(name, 1, 2, 0x100, 0x10, value)
        store(name, 2, 2, 0x100, 0, 0x100)
        store(name, 1, 2, 0xFFFFFFFC, 0x104, 0x01020304)
        store(name, 1, 2, 0xFFFFFFFF, 0x101, 0x01020304)


register_cases()
shared_register_cases()
constant_cases()
compare_cases()
jump_cases()
branch_cases()
access_cases()
