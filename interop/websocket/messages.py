"""The messages that both ends put: 1,000 of 1 to 65,535 octets, as bench/crates/bench_links/src/messages.rt.txt makes them."""

MESSAGES = 1000
LONGEST = 65535
OCTETS = bytes((place * 167 + place // 256 * 13) % 256 for place in range(LONGEST + MESSAGES))


def message(number):
    return OCTETS[number : number + 1 + number * (LONGEST - 1) // (MESSAGES - 1)]


def total():
    """How many octets all messages have, and what these add up to."""
    messages = [message(number) for number in range(MESSAGES)]
    return sum(len(m) for m in messages), sum(sum(m) for m in messages)


if __name__ == "__main__":
    print("%d octets that add up to %d" % total())
