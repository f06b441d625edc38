"""Slips that a board's maker makes in a boot script, each in the `bootcmd` of a small board, and what `fwenv check` finds: the first finding
alone, or why there is none."""

from differential.harness.boards import text_of

from differential.harness.check_lines import (
    apostrophe, backquoted, braced, drops_at_load, empties, hidden, lacked_test, leaves, loose, lost, lost_test, no_calculation, no_calculator, no_expression, no_number, no_operator_of_board, no_script, no_separator, no_setting,
    no_subcommand, no_words_of_env, not_called, not_defined, not_run, over, redirected, runs_nothing,
)  # fmt: skip
from differential.harness.running import Case

BOARD = b"bootm\nbootz\ndhcp\nfatload\nfdt\ngpio\nitest\nload\nmmc\nmw\npart\nreset\nsleep\nsource\ntftpboot\nusb\n"
VARIABLES = {
    b"loadaddr": b"0x82000000",
    b"kernel_addr_r": b"0x82000000",
    b"fdt_addr_r": b"0x88000000",
    b"console": b"ttyS0,115200n8",
    b"board": b"evm",
    b"fdtfile": b"am335x-evm.dtb",
    b"mmcdev": b"0",
    b"bootpart": b"0:1",
    b"bootdir": b"/boot",
    b"loadkernel": b"load mmc ${bootpart} ${kernel_addr_r} ${bootdir}/zImage",
    b"loadfdt": b"load mmc ${bootpart} ${fdt_addr_r} ${bootdir}/${fdtfile}",
    b"mmcargs": b"setenv bootargs console=${console} root=/dev/mmcblk0p2 rw",
    b"mmcboot": b"run mmcargs loadkernel loadfdt && bootz ${kernel_addr_r} - ${fdt_addr_r}",
    b"netboot": b"dhcp && bootz ${loadaddr} - ${fdt_addr_r}",
}
SLIPS = [
    # names of commands
    (b"ehco Booting from the card; run mmcboot", not_called("1:1", "ehco")),
    (b"fatlaod mmc ${bootpart} ${loadaddr} zImage", not_called("1:1", "fatlaod")),
    (b"sentenv bootargs quiet; run mmcboot", not_called("1:1", "sentenv")),
    (b"run loadkernel; bootz${kernel_addr_r} - ${fdt_addr_r}", not_called("1:17", "bootz0x82000000")),
    (b"mmc dev 0; mmcrescan; run mmcboot", not_called("1:12", "mmcrescan")),
    (b"// boots from the card\nrun mmcboot", not_called("1:1", "//")),
    # words of `if` and loops, and separators
    (b"if run loadkernel then run mmcboot; fi", no_script("1:37", "Unexpected", lost("`then`", "if"))),
    (b"if run loadkernel; run mmcboot; fi", no_script("1:33", "Unexpected", lost("`then`", "if"))),
    (b"if run loadkernel; then run mmcboot; else run netboot", no_script("1:54", "Missing", lost("`fi`", "if"))),
    (b"for d in 0 1; mmc dev ${d}; done", no_script("1:15", "Unexpected", lost("`do`", "for"))),
    (b"for d in 0 1; do mmc dev ${d}; run mmcboot", no_script("1:43", "Missing", lost("`done`", "for"))),
    (b"while run loadkernel; mmc rescan; done", no_script("1:35", "Unexpected", lost("`do`", "while"))),
    (b"if run loadkernel; then run mmcboot; else if run loadfdt; then run netboot; fi", no_script("1:79", "Missing", lost("`fi`", "if"))),
    (b"if run loadkernel; then run mmcboot; elseif run loadfdt; then run netboot; fi", no_script("1:58", "Unexpected", lost("`fi`", "if"))),
    (b"if run loadkernel; then run mmcboot; end", no_script("1:41", "Missing", lost("`fi`", "if"))),
    (b"run mmcargs run loadkernel", not_run("1:13", "run")),
    (b"mmc dev ${mmcdev} run mmcboot", no_separator("1:1")),
    # what `setenv` and assignments do
    (b"setenv bootargs=console=${console} rw; run netboot", no_setting("1:1")),
    (b"setenv bootdir = /; run mmcboot", no_setting("1:1")),
    (b"bootdir = /; run mmcboot", not_called("1:1", "bootdir")),
    (b'setenv "bootargs ${bootargs} quiet"; run netboot', no_setting("1:1")),
    (b'setenv bootargs "console=${console} rw; run netboot', no_script("1:17", "Quote")),
    (b"setenv bootargs ${bootargs} it's quiet; run netboot", no_script("1:31", "Quote")),
    (b"bootdir=/; run mmcboot", hidden("1:1", "bootdir")),
    (b"export bootdir=/; run mmcboot", not_called("1:1", "export")),
    # tests
    (b'if test "${board}" == evm; then run mmcboot; fi', no_operator_of_board("1:20", "==")),
    (b'if [ "${board}" = evm ]; then run mmcboot; fi', lacked_test("1:4", "[")),
    (b'if "${board}" = evm; then run mmcboot; fi', lost_test("1:4")),
    (b'if test "${board}"="evm"; then run mmcboot; fi', no_expression("1:4")),
    (b"if test -f ${bootdir}/zImage; then run mmcboot; fi", no_operator_of_board("1:9", "-f")),
    (b"if test -e ${bootdir}/zImage; then run mmcboot; fi", no_expression("1:4")),
    (b'if test "${board}" = evm && "${mmcdev}" = 0; then run mmcboot; fi', lost_test("1:29")),
    (b'if test "${board}" = evm -o sk; then run mmcboot; fi', no_expression("1:4")),
    (b"if test ${mmcdev} eq 0; then run mmcboot; fi", no_expression("1:4")),
    (b"if test mmcdev -eq 0; then run mmcboot; fi", no_number("1:4")),
    (b"if ! run loadkernel; then run netboot; fi", not_called("1:4", "!")),
    (b"if (test ${mmcdev} -eq 0); then run mmcboot; fi", not_called("1:4", "(test")),
    # `&&` and `||`
    (b"run loadkernel & run loadfdt", no_script("1:16", "Operator")),
    (b"run loadkernel | run mmcboot", no_script("1:16", "Operator")),
    (b"run loadkernel and run loadfdt", not_run("1:16", "and")),
    (b"run mmcboot || echo no card |& reset", no_script("1:29", "Operator")),
    # what a board makes in another way
    (b"run loadkernel &&\nrun mmcboot", loose("1:18")),
    (b"run loadkernel \\\n  loadfdt; run mmcboot", drops_at_load("1:16")),
    (b'echo "don\'t worry"; run mmcboot', apostrophe("1:10")),
    (b"bootfile=; run netboot", leaves("1:1")),
    (b'setenv bootdir ""; run mmcboot', empties("1:16")),
    (b"setexpr n ${mmcdev} ++ 1; mmc dev ${n}", no_calculator("1:1")),
    (b"env exists bootdir fdtfile && run mmcboot", no_words_of_env("1:1")),
    # names of variables
    (b"load mmc ${bootprat} ${loadaddr} zImage", not_defined("1:10", "bootprat")),
    (b"run mmc_boot", not_run("1:5", "mmc_boot")),
    (b"load mmc $(bootpart) ${loadaddr} zImage", no_script("1:10", "Substitution")),
    (b"bootz ${loadaddr) - ${fdt_addr_r}", no_script("1:7", "Substitution")),
    (b"dhcp; bootz {loadaddr}", braced("1:13")),
    (b"run ${mmcboot}", not_run("1:5", "run")),
    # what other shells have
    (b"setenv n $(expr ${mmcdev} + 1); mmc dev ${n}", no_script("1:10", "Substitution")),
    (b"setenv n `printenv mmcdev`; mmc dev ${n}", backquoted("1:10")),
    (b"mmc rescan > /dev/null; run mmcboot", redirected("1:12")),
    (b"for d in {0..3}; do mmc dev ${d}; done", braced("1:10")),
    # numbers of words, and calculations
    (b"setexpr n ${mmcdev} + ; mmc dev ${n}", no_calculation("1:1")),
    (b"setexpr n ${mmcdev}+1; mmc dev ${n}", no_calculation("1:1")),
    (b"run; reset", runs_nothing("1:1")),
    (b"env unset bootargs; run mmcboot", no_subcommand("1:1")),
]
# Of these nothing is found
MISSED = {
    b"load mmc ${bootpart} ${loadaddr} zImage, bootz ${loadaddr}": "any word may be an argument of a command of the hardware",
    b'if test "${borad}" = evm; then run mmcboot; fi': "boards test names that their own code sets",
    b"if test -z ${rootpart}; then setenv rootpart 2; fi; run mmcboot": "quotes are not looked at: without a value this is one word, and false",
    b"while true; do mmc rescan; done; run mmcboot": "a loop may be left by a boot",
    b"setenv n 0; while test ${n} -lt 3; do mmc rescan; done; run mmcboot": "a loop may be left by a boot",
}


def of_board(script, found):
    """The slip's first line alone is told here; the model has them all."""
    files = {b"env": text_of(VARIABLES | {b"bootcmd": script}), b"board": BOARD}
    case = Case("a slip", [b"check", b"--env", b"env", b"--board", b"board"], files)
    case.accepts = lambda seen: seen.is_as(case.answer()) and seen.output.startswith(f"bootcmd:{found}\n".encode())
    return case


def slips():
    for script, found in SLIPS:
        yield of_board(script, found)
    for script in MISSED:
        yield over(VARIABLES | {b"bootcmd": script}, [b"--board", b"board"], b"", {b"board": BOARD})


def chunks():
    return [slips]
