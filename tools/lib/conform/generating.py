"""Lines of `check` made by chance: from the grammar of messages, by mutations of those, and at the bounds of lengths.

Parts are drawn once into pools, as hexadecimal digits, and a line is put together of them, so that a million lines take
seconds. Lines of the same seed and number are always the same.
"""
from random import Random

from conform.checks import PHASES

A, B, C, ALL, NONE = "02000000000A", "02000000000B", "02000000000C", "F" * 12, "0" * 12
PLACES = ("hub", "hub", f"node:{B}", f"node:{B}", f"direct:{B}:{A}", f"direct:{B}:{A}", f"direct:{B}:-")
DUE = {"request": (0x06,), "accept": (0x00, 0x07), "connected": (0x01, 0x02, 0x03, 0x04, 0x05, 0x08, 0x0A, 0x0B, 0x00, 0x01), "disconnecting": (0x00, 0x09)}
POOL = 512
TEXTS = ("", "77733A2F2F612F", "C3A9", "E282AC", "F48FBFBF", "FF", "C0AF", "EDA080", "F4908080", "E282", "80", "6180", "00")
IDENTITY_REST = "A" * 32 + "064005D9"


def digits(random, octets):
    return random.randbytes(octets).hex().upper()


def item(random, more):
    """An item of an option list. Mostly it has a shape."""
    kind = random.choice((1, 1, 1, 2, 3, 17, 30, 31, 31, 0))
    marker = kind | (0x80 if more else 0) | (0x40 if random.random() < 0.4 else 0)
    has_data = kind == 31 or kind > 1 and random.random() < 0.5
    if random.random() < 0.1:
        has_data = not has_data
    if not has_data:
        return f"{marker:02X}"
    size = random.choice((0, 1, 2, 3, 3, 4, 5, 8, 30))
    said = size + (random.choice((-1, 1, 256)) if random.random() < 0.05 else 0)
    return f"{marker | 0x20:02X}{max(said, 0):04X}{digits(random, size)}"


def option_list(random):
    """A list of options. A few are cut."""
    count = random.choice((1, 1, 1, 2, 2, 3, 5))
    whole = "".join(item(random, number < count - 1) for number in range(count))
    if random.random() < 0.08:
        whole = whole[:2 * random.randrange(len(whole) // 2)]
    return whole


def payload(random, function):
    """A payload, most of them such as the function has."""
    if random.random() < 0.04:
        return ""
    if function == 0x00:
        answered = f"{random.randrange(16):02X}"
        code = random.choice(("00", "01", "01", "01", "02", "FF"))
        whole = answered + code + (f"{random.choice((0, 0x42, 0x1F)):02X}0007{random.randrange(140, 152):04X}" + random.choice(TEXTS) if code == "01" else "")
    elif function == 0x01:
        whole = digits(random, random.choice((1, 2, 8, 8, 20, 60)))
    elif function == 0x03:
        whole = "".join(random.choice(TEXTS) for _ in range(random.randrange(4)))
    elif function == 0x04:
        whole = f"{random.choice((0, 1, 2, 2, 3, 255)):02X}{random.choice((0, 1, 1, 2)):02X}" + digits(random, 4)
    elif function in (0x06, 0x07):
        whole = random.choice((A, A, B, C, ALL, NONE, digits(random, 6))) + IDENTITY_REST
    elif function >= 0x0C:
        whole = digits(random, random.choice((3, 3, 4, 9)))
    else:
        whole = ""
    if random.random() < 0.12:
        whole = whole[:2 * random.randrange(len(whole) // 2 + 1)]
    elif random.random() < 0.12:
        whole += digits(random, random.choice((1, 1, 2, 10)))
    return whole


class Pools:
    """Parts of messages, drawn once for a seed."""

    def __init__(self, seed):
        random = Random(f"{seed} pools")
        self.options = [option_list(random) for _ in range(POOL)]
        self.payloads = [[payload(random, function) for _ in range(POOL)] for function in range(16)]
        self.addresses = {kind: [self.address(random, kind) for _ in range(POOL)] for kind in ("hub", "nod", "dir")}
        self.functions = {phase: [self.function(random, phase) for _ in range(POOL)] for phase in PHASES}

    @staticmethod
    def function(random, phase):
        if random.random() < 0.5:
            return random.choice(DUE[phase])
        return random.choice((*range(0x0D), *range(0x0D), 0x0D, 0x0E, 0x10, 0xFF))

    @staticmethod
    def address(random, kind):
        """Both addresses as digits and flags, for a function that needs an Originating address and for one that needs none."""
        found = []
        for needs in (True, False):
            if random.random() < 0.12:
                origin, to = (random.choice(("", A, B, C, ALL, NONE)) for _ in range(2))
            elif kind == "hub":
                origin, to = "", random.choice(("", "", B, ALL))
            elif kind == "nod":
                origin, to = A if needs else "", random.choice(("", "", B, ALL))
            else:
                origin, to = random.choice(("", A)), random.choice(("", B))
            found.append((origin + to, (8 if origin else 0) | (4 if to else 0)))
        return found


def mutated(random, message):
    """The message with one thing changed."""
    size = len(message) // 2
    at = 2 * random.randrange(size)
    how = random.randrange(7)
    if how == 0:
        return message[:at]
    if how == 1:
        return message[:at] + message[at + 2:]
    if how == 2:
        return message[:at] + digits(random, 1) + message[at:]
    if how == 3:
        return f"{message[:at]}{int(message[at:at + 2], 16) ^ 1 << random.randrange(8):02X}{message[at + 2:]}"
    if how == 4:
        return message[:at] + random.choice(("00", "FF", "01", "7F", "80", "41", "C1")) + message[at + 2:]
    if how == 5:
        return f"{message[:2]}{int(message[2:4] or '0', 16) ^ 1 << random.randrange(8):02X}{message[4:]}"
    return message + message[at:]


def lines(pools, seed, number, count):
    """The piece of this number, of so many lines."""
    random = Random(f"{seed} {number}")
    bits, draw = random.getrandbits, random.random
    options, payloads, addresses, functions = pools.options, pools.payloads, pools.addresses, pools.functions
    found = []
    for _ in range(count):
        drawn = bits(80)
        place, phase = PLACES[(drawn & 255) % 7], PHASES[drawn >> 8 & 3]
        if drawn >> 10 & 3 == 0:
            phase = "connected"
        drawn >>= 12
        function = functions[phase][drawn & 511]
        drawn >>= 9
        spelled, flags = addresses[place[:3]][drawn & 511][function == 0 or 6 <= function <= 11]
        drawn >>= 9
        message = spelled
        if drawn & 3 == 0:
            flags |= 2
            message += options[drawn >> 2 & 511]
        drawn >>= 11
        if (drawn & 3 == 0) if function in (1, 12) else (drawn & 31 == 0):
            flags |= 1
            message += options[drawn >> 5 & 511]
        drawn >>= 14
        chance = draw()
        if chance < 0.02:
            flags |= 0x10 << (drawn & 3)
        message = f"{function:02X}{flags:02X}{drawn & 0xFFFF:04X}{message}{payloads[function & 15][drawn >> 7 & 511]}"
        if chance > 0.85:
            message = mutated(random, message)
            if chance > 0.96 and message:
                message = mutated(random, message)
        longest = 1600
        if 0.1 < chance < 0.16:
            longest = max(0, len(message) // 2 + int((chance - 0.1) * 50) - 1)
        elif 0.16 < chance < 0.161:
            message += "01" * (longest + int((chance - 0.16) * 3000) - 1 - len(message) // 2)
        found.append(f"{place} {phase} {longest} {message}\n")
    return found
