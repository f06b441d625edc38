"""Whether `fwenv check` finds in a script what a board makes of it in another way: in a row's script each class of docs/differences.md that it
shows has a finding by a code that stands for the class, and a row without a class has none of the codes that stand for one alone."""

import re

from differential.harness.boards import text_of

# The codes by which each class is found
CODES = {
    "apostrophes": {"apostrophes", "reread-value"},
    "assignments-before-a-command": {"syntax"},
    "backslashes": {"backslashes"},
    "backslashes-in-quotes": {"backslashes-in-quotes", "reread-value"},
    "commands-without-stand-in": {"unknown-command"},
    "empty-assignment": {"empty-assignment"},
    "empty-condition": {"syntax"},
    "empty-value": {"empty-value"},
    "env-exists": {"wrong-use"},
    "exit": {"exit"},
    "hashes-in-values": {"reread-value"},
    "joined-lines": {"joined-lines"},
    "loose-operators": {"loose-operators", "syntax"},
    "many-words": {"many-words"},
    "names-of-for": {"syntax"},
    "names-of-variables": {"wrong-use"},
    "names-with-semicolons": {"unknown-command"},
    "newlines-in-values": {"quoted-for", "reread-value"},
    "other-substitutions": {"syntax"},
    "quotes-in-values": {"reread-value"},
    "reserved-words-of-for": {"reserved-words-of-for"},
    "run-of-a-faulty-text": {"syntax"},
    "stale-status": {"stale-status"},
    "then-elif": {"syntax"},
    "underscored-names": {"underscored-names"},
    "wrong-use": {"wrong-use"},
}
# The classes that have none, by why
WITHOUT = {
    "the same is done, and other words are printed": "absent-names env-delete environment-size flags-messages saving",
    "a board's own configuration decides": "built-in-flags callbacks files-in-test flags-patterns flags-while-running large-numbers long-flags options",
    "rules of a board file answer it": "env-subcommands forms-of-setexpr",
    "it hangs on numbers that a run comes to": "delay-numbers division-by-zero nested-runs",
    "it is of stored images and power-ons": "counts-without-room empty-name many-variables names-of-stored-variables refused-values unterminated",
}
UNSEEN = {name for names in WITHOUT.values() for name in names.split()}
# The codes that are found in scripts of these classes alone
OWN = {"reread-value", *CODES} & set().union(*CODES.values()) - {"exit", "stale-status", "wrong-use"}
# The scripts of rows for which that isn't so, by why
EXCEPTIONS = {
    "what a substitution calls or runs isn't followed": (
        b"setenv e exit; setenv f '$e 4; echo $?'; run f; echo $?",
        b"setenv e exit 4; setenv f '$e; echo $?'; run f; echo $?",
        b"setenv g 'exit 3; echo x'; y1=g; run ${y1}; echo $?",
        b"setenv g 'exit 3; echo x'; y1=g; setenv f 'run ${y1}; echo $?'; run f; echo $?",
    ),
    "`env run` isn't followed": (b"setenv g 'exit 0; echo x'; env run g; echo $?", b"setenv g 'exit 3; echo x'; env run g; echo $?"),
    "a newline of a value ends a word of a `for` in both": (b'setenv v "a\nb  c"; for t6 in x${v} "${v}y"; do echo "[$t6]"; done',),
    "an assignment to a name with a `_` first is a call": (b'_a="b c"d && echo b; _=; _a=\'it"s\'; _a=b\\ c; echo $?',),
}
EXCEPTED = {script for scripts in EXCEPTIONS.values() for script in scripts}
# A variable that a script sets before all but assignments, to a text in quotes or a word
SETS = re.compile(rb"((?:\s*\w+=\w+;)*)\s*setenv ([\w#]+) (?:'([^']+)'|\"([^\"\\$]+)\"|((?:[^;' \"\\$]|\\.)+))(?:;|\Z)")


def environment_of(row):
    """The row's variables, with those that its script sets first, so that what it runs is looked at, and the rest of the script."""
    found, rest = dict(row.variables), b"\n".join(row.script)
    while (match := SETS.match(rest)) and b".flags" not in found:
        before, name, *quoted, plain = match.groups()
        found[name] = next(filter(None, quoted), None) or re.sub(rb"\\(.)", rb"\1", plain)
        rest = before + rest[match.end() :]
    return {name: value for name, value in found.items() if value}, rest


def codes_of(row, copy):
    """The codes of what is found in a row's script."""
    variables, script = environment_of(row)
    for path, text in ((copy.text, text_of(variables)), (copy.stubs, b""), (copy.image, script)):
        path.write_bytes(text)
    done = copy.check("--format", "gcc", "--env", copy.text, "--stubs", copy.stubs, "-f", copy.image)
    if done.returncode == 2:
        raise ValueError(f"fwenv check: {done.stderr!r}")
    return set(re.findall(r"(?m)\[([a-z-]+)\]$", done.stdout.decode(errors="replace")))


def fault_of_codes(row, codes):
    """What is wrong with the codes of a row's script, if anything is."""
    missed = [name for name in sorted(row.classes - UNSEEN) if not codes & CODES[name]]
    named = set() if row.classes else codes & OWN
    is_off = bool(missed or named)
    if is_off == (b"\n".join(row.script) in EXCEPTED):
        return None
    return f"not found: {missed}; without a class: {sorted(named)}" if is_off else f"it is an exception, and has {sorted(codes)}"


def faults_of_codes(rows, documented, pair):
    """The names of the classes and of the rows with a script, each with its fault, if it has one."""
    for name in sorted({*documented, *CODES, *UNSEEN}):
        is_once = name in documented and (name in CODES) != (name in UNSEEN)
        yield f"the code of {name}", None if is_once else "scripts/uboot/coded.py doesn't have this class of docs/differences.md once"
    copy = pair.copy("codes")
    for row in rows:
        if row.script:
            yield f"the codes of {row.name}", fault_of_codes(row, codes_of(row, copy))
