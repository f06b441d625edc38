# What scripts/fwenv, scripts/build and scripts/install share; they read it with `source`, with top set to the repository.
# Sets program, the path of the program that is proved, static_program, that of the one that link_static makes of it, and trial_program,
# that of the one that make_trial compiles.
# shellcheck shell=bash
program=$top/crates/fwenv/out/fwenv
static_program=$top/crates/fwenv/out/fwenv-static
trial_program=$top/crates/fwenv/out/trial/fwenv

# crates_of_program: the crates of this repository that the program uses, each after those below it, in $crates.
crates_of_program() {
    local name libraries
    declare -gA libraries_of=()
    crates=()
    while IFS=': ' read -r name libraries; do
        case $name in '' | '#'*) ;; *) libraries_of[$name]=$libraries ;; esac
    done <"$top/crates.txt"
    add_crate fwenv
}

# add_crate NAME: puts a crate after those that it uses.
add_crate() {
    local library
    case " ${crates[*]} " in *" $1 "*) return ;; esac
    for library in ${libraries_of[$1]}; do
        if [ -n "${libraries_of[$library]+x}" ]; then add_crate "$library"; fi
    done
    crates+=("$1")
}

# is_current PROGRAM: whether a program is there and no source of its crates is newer.
is_current() {
    local crate sources=("$top/crates.txt" "$top/HANDLES") folder
    [ -x "$1" ] || return 1
    crates_of_program
    for crate in "${crates[@]}"; do
        for folder in src specs proofs; do
            if [ -d "$top/crates/$crate/$folder" ]; then sources+=("$top/crates/$crate/$folder"); fi
        done
    done
    [ -z "$(find "${sources[@]}" -newer "$1" -print -quit)" ]
}

# has_toolchain: whether the toolchain is there; says so if it isn't.
has_toolchain() {
    command -v rt >/dev/null || ! echo "the toolchain's command rt is not on PATH" >&2
}

# make_trial: compiles the program without proving it. Of two at once the second waits, and runs what the first has made.
make_trial() {
    has_toolchain && mkdir -p "${trial_program%/*}" || return 1
    (
        flock 9
        is_current "$trial_program" && exit
        echo 'fwenv: compiling a trial build of these sources, which takes a minute or two' >&2
        python3 -B "$top/scripts/unproved.py" "$top" "$trial_program" 9>&-
    ) 9>"$trial_program.lock"
}

# say LINE: a line on standard error, on a terminal in the place of the one that tells the progress.
say() {
    if [ -t 2 ]; then printf '\r\033[K' >&2; fi
    printf '%s\n' "$1" >&2
}

# copy_crates FOLDER: copies what the toolchain reads of the program's crates, without what it made of them.
copy_crates() {
    local crate part
    cp "$top/HANDLES" "$1" || return 1
    for crate in "${crates[@]}"; do
        mkdir -p "$1/crates/$crate" || return 1
        for part in "$top/crates/$crate"/*; do
            [ "${part##*/}" = out ] || cp -R "$part" "$1/crates/$crate" || return 1
        done
        echo "$crate:${libraries_of[$crate]:+ ${libraries_of[$crate]}}" >>"$1/crates.txt" || return 1
    done
    chmod -R u+w "$1"
}

# show_progress: says which crates are proved since it was called last; on a terminal also how many there are, and which can be
# proved now, as those that they use are.
show_progress() {
    local crate library line next=
    for crate in $(sed -nE 's/^rt: ([a-z0-9_]+) (proved|is kept: .*)$/\1/p' "$log"); do
        [ -z "${proved[$crate]+x}" ] || continue
        proved[$crate]=yes
        say "[${#proved[@]}/${#crates[@]}] $crate: proved after $((SECONDS - begun)) s"
    done
    [ -t 2 ] || return 0
    for crate in "${crates[@]}"; do
        for library in ${libraries_of[$crate]}; do
            if [ -n "${libraries_of[$library]+x}" ] && [ -z "${proved[$library]+x}" ]; then continue 2; fi
        done
        [ -n "${proved[$crate]+x}" ] || next+=" $crate"
    done
    line="${next:+[${#proved[@]}/${#crates[@]}] $((SECONDS - begun)) s, proving$next}"
    printf '\r\033[K%s' "${line:0:$((${COLUMNS:-80} - 1))}" >&2
}

# prove FOLDER: has the toolchain prove the crates there, as many at once as there are processors and memory for, and build the
# program. Some toolchains (rattle-kit-13f) keep what was proved for later runs.
prove() {
    local status begun=$SECONDS
    local -A proved=()
    : >"$log" || return 1
    (cd "$1" && exec setsid rt ci) </dev/null >>"$log" 2>&1 &
    prover=$!
    while kill -0 "$prover" 2>/dev/null; do
        show_progress
        sleep 0.3
    done
    wait "$prover"
    status=$?
    prover=
    show_progress
    return $status
}

# make_program FOLDER: proves the crates that were copied there, and puts the program in its place, as old as the copies.
make_program() {
    local made=$1/crates/fwenv/out/fwenv
    prove "$1" || return 1
    if [ ! -e "$made.o" ]; then
        # a program that an earlier run kept comes without its object file, which link_static needs: one of another source is built
        echo '// built once more' >>"$1/crates/fwenv/src/main.rt" && prove "$1" || return 1
    fi
    cp "$made.o" "$program.o.$$" && cp "$made" "$program.$$" && touch -r "$1/HANDLES" "$program.$$" && rm -f "$static_program" &&
        mv "$program.o.$$" "$program.o" && mv "$program.$$" "$program"
}

# end_build: ends what is being proved, and leaves nothing of a build that isn't whole. What runs in a session of its own doesn't hear
# of Ctrl-C; rt ends all that it has started.
end_build() {
    if [ -n "$prover" ]; then
        kill "$prover" || true
        wait "$prover" || true
    fi
    rm -rf "$room" "$program.o.$$" "$program.$$"
} 2>/dev/null

# build: proves the program's crates and builds the program, both in a folder of its own that holds these crates alone.
build() {
    local room prover='' status=1 log=$top/crates/fwenv/out/build.log
    has_toolchain || return 1
    echo 'fwenv is missing or older than its sources: proving and building it takes up to half an hour the first time' >&2
    room=$(mktemp -d "${TMPDIR:-/var/tmp}/fwenv-build.XXXXXX") || return 1
    trap 'end_build; exit 130' INT TERM HUP
    crates_of_program
    mkdir -p "${log%/*}" && : >"$log" && copy_crates "$room" && make_program "$room" && status=0
    trap - INT TERM HUP
    end_build
    if [ $status != 0 ]; then
        say "$(tail -n 40 "$log")"
        say "fwenv is not built; $log has all that the toolchain said"
    fi
    return $status
}

# link_static: links the built program once more, in one piece with the C library, as $static_program: it runs on any Linux of this
# processor and starts sooner; with code and read-only data in one segment it touches fewer pages. It fails if there is no C library to
# link like that, or no object file, as for a program that the gate took from an earlier run.
link_static() {
    local kit made=$static_program.$$
    if [ "$static_program" -nt "$program" ]; then return; fi
    [ -e "$program.o" ] && kit=$(dirname "$(rt doc)") && "${CC:-cc}" -static -Wl,-z,noseparate-code -o "$made" "$program.o" "$kit"/c/lib{libc,os}_c.a && mv "$made" "$static_program"
} 2>/dev/null
