"""The program in plain Python: what it answers to any call. Written from docs/ and not from the program, each rule
once; everything is bytes. The tests compare the built program with it (scripts/differential).

    image         stored copies                          docs/images.md
    texts         configurations and other texts         docs/texts.md
    variables     variables with types and access        docs/variables.md
    words         words and tokens of a script           docs/scripts.md
    grammar       the tree of a script                   docs/scripts.md
    calculations  test and setexpr                       docs/test-and-setexpr.md
    shells        the rules in which shells differ       docs/runs.md
    script        what a script does                     docs/runs.md
    session       copies, saves, marks and undo          docs/undo.md
    dry_run       blocks and dot lines                   docs/dry-runs.md
    script_run    what is reported of a script           docs/dry-runs.md
    trace         the commands of a run                  docs/dry-runs.md
    board_file    what a board answers                   docs/runs.md
    boots         every power-on of a board              docs/boot.md
    check         what is found in scripts               docs/check.md
    report        what is stored, line by line           docs/status.md
    arguments     the command line                       docs/tools.md
    program       the tools over files                   docs/tools.md
"""
