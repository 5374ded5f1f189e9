"""CRC-32C of many bytes, in many lanes at the same time: each step takes one byte of every lane, by tables of bytes."""
POLYNOMIAL = 0x82F63B78
LANES = 8192
START = 0xFFFFFFFF


def entry(value):
    for _ in range(8):
        value = value >> 1 ^ (POLYNOMIAL if value & 1 else 0)
    return value


TABLE = [entry(value) for value in range(256)]
BYTES = [bytes(value >> 8 * part & 0xFF for value in TABLE) for part in range(4)]


def one_by_one(state, data):
    for byte in data:
        state = state >> 8 ^ TABLE[(state ^ byte) & 0xFF]
    return state


def of_lanes(data, each):
    """The states behind so many lanes of so many bytes, each begun with zero."""
    first = second = third = fourth = 0
    for at in range(each):
        column = int.from_bytes(data[at:each * LANES:each], "little")
        index = (first ^ column).to_bytes(LANES, "little")
        terms = [int.from_bytes(index.translate(part), "little") for part in BYTES]
        first, second, third, fourth = second ^ terms[0], third ^ terms[1], fourth ^ terms[2], terms[3]
    columns = [part.to_bytes(LANES, "little") for part in (first, second, third, fourth)]
    return [int.from_bytes(state, "little") for state in zip(*columns)]


def applied(images, state):
    """A linear map, by the images of the bits."""
    value = 0
    for bit in range(32):
        if state >> bit & 1:
            value ^= images[bit]
    return value


def past_zeros(count):
    """What so many bytes of zero make of a state."""
    power, images = [one_by_one(1 << bit, b"\0") for bit in range(32)], [1 << bit for bit in range(32)]
    while count:
        if count & 1:
            images = [applied(power, image) for image in images]
        power, count = [applied(power, image) for image in power], count >> 1
    return images


def crc(data):
    each, state = len(data) // LANES, START
    if each:
        images = past_zeros(each)
        for lane in of_lanes(data, each):
            state = applied(images, state) ^ lane
    return one_by_one(state, data[each * LANES:]) ^ START
