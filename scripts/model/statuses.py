"""Commands of a script whose statuses are asked for, where the shells, or boards, leave different ones (docs/check.md)."""

from dataclasses import dataclass, replace

AND_OR, IF_STATUS, LOOP_STATUS = b"and-or", b"if-status", b"loop-status"


@dataclass(frozen=True)
class Setting:
    """What is around a command: whether its status is asked for, the kinds of findings at it, and whether it is the first of a text, or of the
    body of a `for`."""

    asked: bool
    kinds: tuple = ()
    begins: bool = False

    def asked_if(self, kind, is_found):
        """The setting of a condition, at which something may be found."""
        return replace(self, asked=True, kinds=(*self.kinds, kind) if is_found and kind not in self.kinds else self.kinds)


def settled(text, chains, asked):
    """The simple commands, assignments and heads of `for` in the order of the text, each with its setting; `asked`: the status of the whole is
    asked for. So is each in a text that has `$?`."""
    return in_list(chains, Setting(asked, begins=True), b"$?" in text) if chains else ()


def in_list(chains, setting, shows):
    for chain in chains[:-1]:
        yield from in_chain(chain, replace(setting, asked=shows), shows)
        setting = Setting(setting.asked)
    yield from in_chain(chains[-1], setting, shows)


def in_chain(chain, setting, shows):
    for at, (operator, command) in enumerate(chain):
        is_asked = setting.asked or at + 1 < len(chain)
        is_other = at > 1 and operator != chain[1][0]
        own = Setting(is_asked, (AND_OR,) * is_other) if at else replace(setting, asked=is_asked)
        yield from in_command(command, own, shows)


def in_command(command, setting, shows):
    kind, after = command[0], Setting(setting.asked)
    if kind == "if":
        condition = setting.asked_if(IF_STATUS, setting.asked and command[2] is None)
        for each, body in command[1]:
            yield from in_list(each, condition, shows)
            yield from in_list(body, after, shows)
            condition = Setting(True)
        yield from in_list(command[2], after, shows) if command[2] else ()
    elif kind in ("while", "until"):
        yield from in_list(command[1], setting.asked_if(LOOP_STATUS, setting.asked), shows)
        yield from in_list(command[2], Setting(shows), shows)
    else:
        yield command, setting
        if kind == "for":
            yield from in_list(command[3], Setting(setting.asked or shows, begins=True), shows)
