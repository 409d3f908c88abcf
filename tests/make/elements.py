"""Elements of X.690: a reader that names the octet of the first fault, and the writer of the shortest definite form."""


class Fault(Exception):
    """The octet of the fault."""


def identifier(octets, at, end):
    """Class, constructed and number of the tag at a place, and what follows it; None where it is no tag."""
    if at >= end:
        return None
    first = octets[at]
    number, next = first & 31, at + 1
    if number == 31:
        number = 0
        while True:
            if next >= end or (number == 0 and octets[next] == 0x80):
                return None
            octet = octets[next]
            number, next = number * 128 + (octet & 127), next + 1
            if number >= 2**32:
                return None
            if octet < 128:
                break
        if number < 31:
            return None
    if first >> 6 == 0 and number == 0:
        return None
    return first >> 6, first >> 5 & 1, number, next


def length_at(octets, at, end):
    """The definite length at a place (None where indefinite), and what follows; None where it is none."""
    if at >= end:
        return None
    first = octets[at]
    if first < 128:
        return first, at + 1
    count = first & 127
    if count == 0:
        return None, at + 1
    if first == 255 or at + 1 + count > end:
        return None
    length = int.from_bytes(octets[at + 1:at + 1 + count], "big")
    return None if length >= 2**64 else (length, at + 1 + count)


def read(octets, at, end, depth):
    """The element at a place as (class, constructed, number, body), and what follows it."""
    tag = identifier(octets, at, end)
    length = tag and length_at(octets, tag[3], end)
    if length is None or depth > 16:
        raise Fault(at)
    (kind, constructed, number, _), (count, next) = tag, length
    if count is not None:
        if next + count > end:
            raise Fault(at)
        if not constructed:
            return (kind, constructed, number, octets[next:next + count]), next + count
        inner, place = [], next
        while place < next + count:
            one, place = read(octets, place, next + count, depth + 1)
            inner.append(one)
        return (kind, constructed, number, inner), next + count
    if not constructed:
        raise Fault(at)
    inner, place = [], next
    while octets[place:min(place + 2, end)] != b"\0\0":
        if place >= end:
            raise Fault(at)
        one, place = read(octets, place, end, depth + 1)
        inner.append(one)
    return (kind, constructed, number, inner), place + 2


def shortest(number):
    return number.to_bytes((number.bit_length() + 7) // 8, "big")


def length_octets(count):
    return bytes([count]) if count < 128 else bytes([128 + len(shortest(count))]) + shortest(count)


def written(element):
    kind, constructed, number, body = element
    contents = b"".join(map(written, body)) if constructed else body
    front = kind << 6 | constructed << 5
    if number < 31:
        tag = bytes([front | number])
    else:
        digits = [number & 127]
        while number >= 128:
            number >>= 7
            digits.append(number & 127 | 128)
        tag = bytes([front | 31] + digits[::-1])
    return tag + length_octets(len(contents)) + contents


def element(word):
    octets = bytes.fromhex(word)
    try:
        one, taken = read(octets, 0, len(octets), 1)
    except Fault as fault:
        return f"!{fault.args[0]}"
    return f"{taken} {written(one).hex().upper()}"


def length(count):
    return (b"\x04" + length_octets(int(count))).hex().upper()
