"""Compares the built program with the model in Python (scripts/model): standard output, standard error, the status
and every byte of every file, for cases that are made of a seed, and for those that cut, turn and damage what the
program reads.

    python3 -m differential PROGRAM FOLDER PART [COUNT SEED]     (PYTHONPATH=scripts)

FOLDER has the libraries cut.so, refuse.so and raw.so that are preloaded, which scripts/test compiles. A part is a file here with a
function `chunks`; what it compares is said at its beginning. The last line is 'N passed, M failed'.
"""
