"""Messages cut out of a stream by two rules alone: where a head ends, and how long its body is."""
from lib.sent import Request


def cut(stream):
    """The whole messages of a stream, each the lines of its head and its body, and what is left."""
    found, start = [], 0
    while True:
        lines, place = [], start
        while not lines or lines[-1]:
            end = stream.find(b"\n", place)
            if end < 0:
                return found, stream[start:]
            line, place = stream[place:end].removesuffix(b"\r"), end + 1
            if line or lines:
                lines.append(line)
        lengths = [line[15:].strip(b" \t") for line in lines if line.lower().startswith(b"content-length:")]
        length = int(lengths[0]) if lengths and lengths[0].isdigit() else 0
        if len(stream) - place < length:
            return found, stream[start:]
        found.append((lines[:-1], stream[place:place + length]))
        start = place + length


def request_of(lines, body):
    """A message by the lines of its head, or none where they are no head."""
    words = lines[0].decode("latin-1").split(" ")
    fields = tuple(tuple(line.decode("latin-1").split(":", 1)) for line in lines[1:])
    if len(words) != 3 or any(len(field) != 2 for field in fields):
        return None
    return Request(words[0], words[1], fields, body, words[2])
