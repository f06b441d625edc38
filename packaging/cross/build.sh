# The program for aarch64, made on a machine of another kind; scripts/package reads this with `source`, after scripts/build.sh.
# shellcheck shell=bash disable=SC2034,SC2154
cross=aarch64-linux-gnu
cross_program=$program-aarch64

# has_cross_compiler: whether there is a C compiler for that processor, and a C library to link in one piece.
has_cross_compiler() {
    case $("$cross-gcc" -print-file-name=libc.a 2>/dev/null) in */*) ;; *) return 1 ;; esac
}

# compile_cross FOLDER: compiles the program over the proved libraries there. The toolchain refuses one that isn't proved.
compile_cross() {
    local crate kit words=()
    kit=$(dirname "$(rt doc)") || return 1
    for crate in "${crates[@]}"; do words+=(-L "dependency=$1/crates/$crate/out/rlib"); done
    for crate in ${libraries_of[fwenv]}; do words+=(--extern "$crate=$1/crates/$crate/out/rlib/$crate.rlib"); done
    (cd "$1/crates/fwenv" && "$kit/bin/rattle" build --crate-name fwenv src/main.rt --extern "std=$kit/rlibs/std.rlib" \
        -L "dependency=$kit/rlibs" "${words[@]}" --antt-project "$kit/rattle/logic/antt-project.json" \
        --logic-built "$kit/logic_built" --links fwenv= --jobs 1 --target aarch64-unknown-linux-gnu --toolchain "$kit/toolchain" \
        -o "$cross_program.o.$$") >>"$log" 2>&1
}

# end_cross: ends what is being built, and leaves nothing that isn't whole.
end_cross() {
    rm -f "$cross_program.o.$$" "$cross_program.$$"
    # (whoever calls may end at the first command that fails, as waiting for what was ended does)
    end_build || true
}

# has_libraries: whether the repository's crates have the libraries that its gate proved of these sources. (Those that other commands of
# the toolchain make have a stamp beside them.)
has_libraries() {
    local crate folder
    for crate in "${crates[@]}"; do
        folder=$top/crates/$crate/out/rlib
        [ "$crate" = fwenv ] || { [ ! -e "$folder/stamp" ] && is_current "$folder/$crate.rlib"; } || return 1
    done
}

# prove_and_compile FOLDER: copies the crates to that folder, and compiles the program over what is proved there. The toolchain finds, by
# the checksums of all that their proofs read, the libraries of which the program was made. (One that keeps nothing for later runs proves
# them once more.)
prove_and_compile() {
    copy_crates "$1" && prove "$1" && compile_cross "$1"
}

# build_cross: makes $cross_program, in one piece with the C library and with glue.c, if it isn't there and as new as the program. Behind
# the gate nothing is proved anew but the last crate.
build_cross() {
    local lock room prover='' status=1 log=$top/crates/fwenv/out/cross.log glue=$top/packaging/cross/glue.c
    # two at once would do the same twice
    exec {lock}>"$cross_program.lock" && flock "$lock" || return 1
    if [ "$cross_program" -nt "$program" ] && [ "$cross_program" -nt "$glue" ]; then return; fi
    echo 'fwenv for aarch64 is missing or older than fwenv: compiling it takes some minutes' >&2
    room=$(mktemp -d "${TMPDIR:-/var/tmp}/fwenv-cross.XXXXXX") || return 1
    trap 'end_cross; exit 130' INT TERM HUP
    crates_of_program
    { has_libraries && compile_cross "$top" || prove_and_compile "$room"; } &&
        "$cross-gcc" -O2 -Wall -static -Wl,--wrap=main -o "$cross_program.$$" "$cross_program.o.$$" "$glue" 2>>"$log" &&
        mv "$cross_program.o.$$" "$cross_program.o" && mv "$cross_program.$$" "$cross_program" && status=0
    trap - INT TERM HUP
    end_cross
    if [ $status != 0 ]; then
        tail -n 40 "$log" >&2
        echo "fwenv for aarch64 is not built; $log has all that was said" >&2
    fi
    return $status
}
