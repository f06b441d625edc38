"""How inputs are damaged: cut at each place, with each bit turned, and changed at random. Each input at random has
numbers of its own, so that it can be made again alone."""

import functools
import random

PIECE, CHANGES = 8, 4
EACH = 250


def numbers_of(*words):
    return random.Random("/".join(map(str, words)))


def turned(text):
    """The text with each of its bits turned."""
    for at, byte in enumerate(text):
        for bit in range(8):
            yield text[:at] + bytes([byte ^ 1 << bit]) + text[at + 1 :]


def prefixes(text):
    return [text[:length] for length in range(len(text) + 1)]


def changed(text, tokens, numbers):
    """The text with one change: a byte is another, or has a bit turned; a piece is taken out, doubled or put after
    the next one; the rest is cut off; or a token is put in."""
    at, first, second = numbers.randrange(len(text) + 1), numbers.randint(1, PIECE), numbers.randint(1, PIECE)
    prefix, rest = text[:at], text[at:]
    piece, back = rest[:first], rest[first:]
    bit = bytes([(rest[0] if rest else 0) ^ 1 << numbers.randrange(8)])
    return [
        prefix + bytes([numbers.randrange(256)]) + rest[1:],
        prefix + bit + rest[1:],
        prefix + back,
        prefix + piece + piece + back,
        prefix + back[:second] + piece + back[second:],
        prefix,
        prefix + numbers.choice(tokens) + rest,
    ][numbers.randrange(7)]


def mutant(text, tokens, numbers):
    """The text with one change to four."""
    for _ in range(numbers.randint(1, CHANGES)):
        text = changed(text, tokens, numbers)
    return text


def at_random(count, make):
    """Chunks of cases, of which `make` makes each by its number."""
    ranges = [range(start, min(start + EACH, count)) for start in range(0, count, EACH)]
    return [functools.partial(map, make, numbers) for numbers in ranges]
