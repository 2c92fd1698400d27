"""What stands in a WebAssembly module: bytes, numbers and lists of things, read and written."""


class Refused(Exception):
    """What a module has, and there is no rule for."""


class Reader:
    """Reads bytes from a place on."""

    def __init__(self, data, at=0):
        self.data, self.at = data, at

    def is_over(self):
        """Whether nothing is left."""
        return self.at >= len(self.data)

    def byte(self):
        """One byte."""
        self.at += 1
        return self.data[self.at - 1]

    def take(self, count):
        """So many bytes."""
        self.at += count
        return self.data[self.at - count : self.at]

    def number(self):
        """A number without a sign."""
        value = shift = 0
        while True:
            digit = self.byte()
            value |= (digit & 127) << shift
            shift += 7
            if digit < 128:
                return value

    def signed(self):
        """A number with a sign."""
        start = self.at
        value = self.number()
        width = 7 * (self.at - start)
        return value - (1 << width) if self.data[self.at - 1] & 64 else value

    def sized(self):
        """Bytes after their count."""
        return self.take(self.number())


def number(value):
    """A number without a sign, as bytes."""
    out = bytearray()
    while value > 127:
        out.append(value & 127 | 128)
        value >>= 7
    return bytes([*out, value])


def signed(value):
    """A number with a sign, as bytes."""
    out = bytearray()
    while not -64 <= value < 64:
        out.append(value & 127 | 128)
        value >>= 7
    return bytes([*out, value & 127])


def sized(data):
    """Bytes after their count."""
    return number(len(data)) + data


def listed(items):
    """Things after their count."""
    return number(len(items)) + b"".join(items)
