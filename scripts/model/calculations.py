"""The commands of a script that compute: test and setexpr (docs/test-and-setexpr.md)."""

import operator
import re

LARGEST = 2**63 - 1


def integer_of(word):
    """What `test` reads at the front of a word."""
    sign = 1
    if word[:1] == b"-":
        sign, word = -1, word[1:]
    if found := re.match(rb"0[xX]([0-9a-fA-F]+)", word):
        number = int(found.group(1), 16)
    elif found := re.match(rb"0[0-7]*", word):
        number = int(found.group(), 8)
    elif found := re.match(rb"[1-9][0-9]*", word):
        number = decimal(found.group())
    else:
        number = 0
    return sign * number


def decimal(digits):
    """The number of these digits, or in place of a very large one the remainder modulo 10 to the 64th, which is a multiple of 2 to the
    64th, and that again."""
    return int(digits) if len(digits) <= 64 else 10**64 + int(digits[-64:])


def saturated(number):
    """What the strict shell counts."""
    return max(-LARGEST, min(LARGEST, number))


def wrapped(number):
    """What a board counts: 64 bits with a sign."""
    return (number + 2**63) % 2**64 - 2**63


def value_of(word):
    """What `setexpr` reads at the front of a word."""
    found = re.match(rb"(?:0[xX](?=[0-9a-fA-F]))?([0-9a-fA-F]+)", word)
    return int(found.group(1), 16) % 2**64 if found else 0


def status_of_digits(word):
    """Decimal digits that spell 0 to 255."""
    if not re.fullmatch(rb"[0-9]+", word):
        return None
    status = int(word.lstrip(b"0")[:4] or b"0")
    return status if status <= 255 else None


OF_TEXTS = {b"=": operator.eq, b"!=": operator.ne, b"<": operator.lt, b">": operator.gt}
OF_NUMBERS = {
    b"-eq": operator.eq,
    b"-ne": operator.ne,
    b"-lt": operator.lt,
    b"-le": operator.le,
    b"-gt": operator.gt,
    b"-ge": operator.ge,
}
COMPARISONS = OF_TEXTS | OF_NUMBERS


def holds(left, comparison, right, counted):
    """Whether a comparison holds; `counted` says what a shell makes of a number."""
    if comparison in OF_NUMBERS:
        left, right = counted(integer_of(left)), counted(integer_of(right))
    return COMPARISONS[comparison](left, right)


def term(words):
    """The value of the term at the front and the words after it; None if there is none."""
    negated = False
    while words[:1] == [b"!"]:
        negated = not negated
        words = words[1:]
    if words[:1] in ([b"-n"], [b"-z"]):
        if len(words) < 2:
            return None
        value = (words[1] == b"") == (words[0] == b"-z")
        return value != negated, words[2:]
    if len(words) < 3 or words[1] not in COMPARISONS:
        return None
    return holds(*words[:3], saturated) != negated, words[3:]


def test(words):
    """Whether the words are an expression that is true."""
    first = term(words)
    if first is None:
        return False
    value, words = first
    while words:
        operator = words[0]
        if operator not in (b"-a", b"-o"):
            return False
        following = term(words[1:])
        if following is None:
            return False
        other, words = following
        value = (value and other) if operator == b"-a" else (value or other)
    return value


# How a board reads a test: at which of the words that are left an operator is looked for, the operator, and how many words it
# takes. The first line that fits counts.
AT_FRONT = [(0, b"!", 1), (0, b"-o", 1), (0, b"-a", 1), (0, b"-z", 2), (0, b"-n", 2), (0, b"-e", 4)]
READ = [(1, operator, 3) for operator in COMPARISONS] + AT_FRONT
JOINTS = {None: lambda s, t: t, b"-a": lambda s, t: s and t, b"-o": lambda s, t: s or t}


def value_read(words, there):
    """What the words of an operator are worth that is no `!` and no joint."""
    if words[0] in (b"-z", b"-n") and len(words) == 2:
        return (words[1] == b"") == (words[0] == b"-z")
    return there(words[1:]) if len(words) == 4 else holds(*words, wrapped)


def board_test(words, there):
    """Whether a board takes the words for true; `there` says whether `-e` finds the file of its three words."""
    if len(words) < 2:
        return False
    value, negated, joint, before = False, False, None, False
    while words:
        _, operator, size = next((line for line in READ if words[line[0] : line[0] + 1] == [line[1]]), (0, None, 1))
        if operator is None or len(words) < size:
            return True
        taken, words = words[:size], words[size:]
        if operator == b"!":
            negated = not negated
        elif operator in JOINTS:
            joint, before = operator, value
        else:
            value = JOINTS[joint](before, value_read(taken, there) != negated)
            negated, joint = False, None
    return value


OPERATORS = {
    b"&": lambda a, b: a & b,
    b"|": lambda a, b: a | b,
    b"^": lambda a, b: a ^ b,
    b"+": lambda a, b: a + b,
    b"-": lambda a, b: a - b,
    b"*": lambda a, b: a * b,
    b"/": lambda a, b: a // b,
    b"%": lambda a, b: a % b,
}


def setexpr(words):
    """What is to be written: (name, text), or "use" or "zero"."""
    if len(words) not in (2, 4) or words[1] in (b"sub", b"gsub", b"fmt") or words[1][:1] == b"*":
        return "use"
    number = value_of(words[1])
    if len(words) == 4:
        if words[2] not in OPERATORS or words[3][:1] == b"*":
            return "use"
        other = value_of(words[3])
        if words[2] in (b"/", b"%") and other == 0:
            return "zero"
        number = OPERATORS[words[2]](number, other) % 2**64
    return words[0], b"%x" % number
