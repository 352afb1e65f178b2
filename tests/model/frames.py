"""The input of the test programs: frames, as crates/test_frames reads them."""


def two(n):
    return bytes([n >> 8, n & 255])


def four(n):
    return two(n >> 16) + two(n & 65535)


def frame(*parts):
    body = b''.join(parts)
    assert 0 < len(body) <= 65536, len(body)
    return four(len(body)) + body


def whole(runs):
    """The text of runs, each a number of times and a text."""
    return b''.join(text * times for times, text in runs)


def packed(runs):
    return b''.join(two(min(times - n, 65535)) + two(len(text)) + text for times, text in runs for n in range(0, times, 65535))
