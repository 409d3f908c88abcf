"""HTTP/1.1 heads as their grammar reads them (RFC 9112), and the messages of a stream of bytes."""

TOKEN = set(b"!#$%&'*+-.^_`|~0123456789ABCDEFGHIJKLMNOPQRSTUVWXYZabcdefghijklmnopqrstuvwxyz")
MOST_BYTES, MOST_LINES, MOST_BODY = 16384, 66, 1048576


def is_uri(byte):
    return byte > 32 and byte != 127


def is_value(byte):
    return byte == 9 or byte >= 32 and byte != 127


def is_text(octets):
    try:
        octets.decode("utf-8")
        return True
    except UnicodeDecodeError:
        return False


def front(octets):
    """The bytes in which a head must end, and whether they are cut."""
    at, lines = 0, 0
    for at, byte in enumerate(octets[:MOST_BYTES]):
        lines += byte == 10
        if lines == MOST_LINES:
            return octets[:at + 1], True
    return octets[:MOST_BYTES], len(octets) >= MOST_BYTES


class Head:
    def __init__(self):
        self.start, self.fields = {}, []


class Reader:
    """Walks over bytes one by one; `state` is None where no more bytes make a head, and 'done' behind one."""

    def __init__(self, is_request):
        self.is_request, self.state, self.word, self.head = is_request, "blank", bytearray(), Head()

    def take(self, byte):
        self.state = getattr(self, "in_" + self.state.replace(" ", "_"))(byte)

    def word_is(self, name):
        self.head.start[name], self.word = bytes(self.word), bytearray()

    def add(self, byte, state):
        self.word.append(byte)
        return state

    def in_blank(self, byte):
        if byte == 10:
            return "blank"
        if byte == 13:
            return "blank return"
        if self.is_request:
            return self.add(byte, "method") if byte in TOKEN else None
        return self.in_version(byte)

    def in_blank_return(self, byte):
        return "blank" if byte == 10 else None

    def in_method(self, byte):
        if byte in TOKEN:
            return self.add(byte, "method")
        if byte != 32:
            return None
        self.word_is("method")
        return "target"

    def in_target(self, byte):
        if is_uri(byte):
            return self.add(byte, "target")
        if byte != 32 or not self.word or not is_text(bytes(self.word)):
            return None
        self.word_is("target")
        return "version"

    def in_version(self, byte):
        self.word.append(byte)
        if not b"HTTP/1.".startswith(bytes(self.word[:7])) or len(self.word) == 8 and byte not in b"01":
            return None
        if len(self.word) < 8:
            return "version"
        self.word_is("version")
        return "line end" if self.is_request else "status space"

    def in_status_space(self, byte):
        return "status" if byte == 32 else None

    def in_status(self, byte):
        if byte not in b"0123456789":
            return None
        self.word.append(byte)
        if len(self.word) < 3:
            return "status"
        self.word_is("status")
        return "after status"

    def in_after_status(self, byte):
        return "reason" if byte == 32 else self.in_line_end(byte)

    def in_reason(self, byte):
        return "reason" if is_value(byte) else self.in_line_end(byte)

    def in_line_end(self, byte):
        return "field" if byte == 10 else "line return" if byte == 13 else None

    def in_line_return(self, byte):
        return "field" if byte == 10 else None

    def in_field(self, byte):
        if byte == 10:
            return "done"
        if byte == 13:
            return "last return"
        return self.add(byte, "name") if byte in TOKEN else None

    def in_last_return(self, byte):
        return "done" if byte == 10 else None

    def in_name(self, byte):
        if byte in TOKEN:
            return self.add(byte, "name")
        if byte != 58:
            return None
        self.name, self.word = bytes(self.word).lower(), bytearray()
        return "value"

    def in_value(self, byte):
        if is_value(byte):
            return self.add(byte, "value")
        end = self.in_line_end(byte)
        if end:
            self.head.fields.append((self.name, bytes(self.word).strip(b" \t")))
            self.word = bytearray()
        return end


def length(fields):
    """The length that the fields state, 0 where none does, or why the head is refused."""
    stated = None
    for name, value in fields:
        if name == b"content-length":
            if not 1 <= len(value) <= 10 or not value.isdigit() or stated not in (None, int(value)):
                return "bad"
            stated = int(value)
    if any(name == b"transfer-encoding" for name, _ in fields):
        return "chunked"
    return "long body" if (stated or 0) > MOST_BODY else stated or 0


def begins(octets, is_request):
    """What bytes begin with: a head with its size and the length of its body, a refusal, or None where neither so far."""
    near, cut = front(octets)
    reader = Reader(is_request)
    for at, byte in enumerate(near):
        reader.take(byte)
        if reader.state is None:
            return "bad"
        if reader.state == "done":
            count = length(reader.head.fields)
            if isinstance(count, str):
                return count
            return (reader.head, at + 1, count) if len(octets) >= at + 1 + count else None
    return "long head" if cut else None


def spread(words):
    """Bytes written as hexadecimal words, each of which may be repeated."""
    octets = bytearray()
    for word in words.split():
        digits, _, times = word.partition("*")
        octets += bytes.fromhex(digits) * int(times or 1)
    return bytes(octets)


def messages(words, is_request, told):
    """What is read of a stream, message by message, to its end or its first refusal."""
    octets, answers = spread(words), []
    while True:
        found = begins(octets, is_request)
        if isinstance(found, str):
            return "; ".join(answers + [found])
        if found is None:
            end = "end" if is_request and not octets else f"cut {len(octets)}"
            return "; ".join(answers + [end])
        head, size, count = found
        answers.append(f"{told(head)} {count}")
        octets = octets[size + count:]


def asked(head):
    closes = head.start["version"] == b"HTTP/1.0" or any(
        name == b"connection" and value.lower() == b"close" for name, value in head.fields)
    return f"{head.start['method'].decode()} {head.start['target'].decode()} {'close' if closes else 'keep'}"


def answered(head):
    texts = [value.decode() for name, value in head.fields if name == b"location" and is_text(value)]
    return f"{int(head.start['status'])} {texts[0] if texts else '-'}"


def requests(words):
    return messages(words, True, asked)


def responses(words):
    return messages(words, False, answered)


def cuts(kind, words):
    """What is read wherever the stream is cut in two: the same as without a cut. There are as many cuts as bytes."""
    return f"{len(spread(words))} cuts: {dict(request=requests, response=responses)[kind](words)}"
