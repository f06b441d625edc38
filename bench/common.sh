# What the measurements share; they read it with `source`. Sets top, the repository, and work, a folder for what they make.
set -euo pipefail
# (awk and printf write and read numbers with a point)
export LC_ALL=C
top=$(cd "$(dirname "${BASH_SOURCE[0]}")/.." && pwd)
work=${TMPDIR:-/tmp}/fwenv-bench-$(id -u)
mkdir -p "$work"
exec 9>"$work/lock"
if ! flock -n 9; then
    echo "$(basename "$0"): another measurement is running: both would be wrong" >&2
    exit 1
fi

# need COMMAND [PACKAGE]: stops if a command is missing, and reports which Debian package has it.
need() {
    if ! command -v "$1" >/dev/null; then
        echo "$(basename "$0"): $1 is missing${2:+ (Debian: apt-get install $2)}" >&2
        exit 1
    fi
}

# compiled NAME [WORDS]: the program that bench/NAME.c makes, compiled if it is missing or made of another text.
compiled() {
    local program=$work/$1 source=$top/bench/$1.c
    if ! [ -x "$program" ] || ! cmp -s "$source" "$program.c"; then
        "${CC:-cc}" -O2 -Wall -o "$program" "$source" "${@:2}" >&2 && cp "$source" "$program.c"
    fi
    echo "$program"
}

# counted COMMAND [WORDS]: the instructions of a command, which has to end with the status WANTED (0); nothing if LIMIT
# seconds (600) don't suffice. Its output goes to $work/output, its profile to $work/profile. The C library copies without
# `rep movsb`, of which callgrind counts each byte as an instruction.
counted() {
    local status=0 most=0x7fffffff
    GLIBC_TUNABLES=glibc.cpu.x86_rep_movsb_threshold=$most:glibc.cpu.x86_rep_stosb_threshold=$most timeout "${LIMIT:-600}" valgrind --tool=callgrind --callgrind-out-file="$work/profile" "$@" \
        >"$work/output" 2>"$work/counted" || status=$?
    if [ "$status" = 124 ]; then return; fi
    if [ "$status" != "${WANTED:-0}" ] || ! grep -q 'Collected' "$work/counted"; then
        tail -n 20 "$work/counted" >&2
        echo "$(basename "$0"): $* ended with status $status" >&2
        return 1
    fi
    sed -n 's/.*Collected : *//p' "$work/counted"
}

# in_millions NUMBER
in_millions() {
    awk -v n="$1" 'BEGIN { printf "%.2f", n / 1e6 }'
}

# program_of NAME: the path of the program that the crate NAME is, proved and built if needed; the output of the
# build goes to a log.
program_of() {
    echo "$(basename "$0"): proving and building $1 (minutes the first time) .." >&2
    if ! (cd "$top/crates/$1" && ${RT:-rt} run </dev/null) >"$work/$1.log" 2>&1; then
        tail -n 40 "$work/$1.log" >&2
        exit 1
    fi
    echo "$top/crates/$1/out/$1"
}

# fastest COUNT INPUT COMMAND..: the best time of so many runs, in nanoseconds, goes to taken, the most memory in KiB to memory. Each has
# to end with the status WANTED (0).
fastest() {
    local time peak turn least='' most=0
    for ((turn = 0; turn < $1; turn++)); do
        "$measure" "$work/measured" "${@:3}" <"$2" >/dev/null 2>"$work/errors" || [ $? = "${WANTED:-0}" ]
        read -r time peak _ <"$work/measured"
        if [ -z "$least" ] || [ "$time" -lt "$least" ]; then least=$time; fi
        if [ "$peak" -gt "$most" ]; then most=$peak; fi
    done
    taken=$least memory=$most
}

# ends WORDS INPUT COMMAND..: one run of a program that measures. It prints the words that are wanted, any if WORDS is
# empty, and then the nanoseconds that its part took; these go to taken, the peak memory in KiB to memory.
ends() {
    local line
    "$measure" "$work/measured" "${@:3}" <"$2" >"$work/output"
    line=$(<"$work/output")
    taken=${line##* }
    read -r _ memory _ <"$work/measured"
    if [ "$1" ] && [ "${line% *}" != "$1" ]; then
        echo "$(basename "$0"): ${*:4} ended with ${line% *}, not with $1" >&2
        exit 1
    fi
}

# measured NAME COUNT WORDS INPUT: one line of a table for the part that the command in the array run has, and that in the
# array ready leaves out. The instructions of the part go to instructions, its best time in nanoseconds to best, the memory
# that it took beyond what a run without it takes, in KiB, to grown.
measured() {
    local peak=0 none whole before taken memory
    ends '' "$4" "${ready[@]}"
    before=$memory
    best=''
    for _ in 1 2 3 4 5; do
        ends "$3" "$4" "${run[@]}"
        if [ -z "$best" ] || [ "$taken" -lt "$best" ]; then best=$taken; fi
        if [ "$memory" -gt "$peak" ]; then peak=$memory; fi
    done
    none=$(counted "${ready[@]}" <"$4")
    whole=$(counted "${run[@]}" <"$4")
    instructions=$((whole - none))
    grown=$((peak - before))
    awk -v name="$1" -v count="$2" -v n="$instructions" -v t="$best" -v peak="$peak" -v before="$before" \
        'BEGIN { printf "%-38s %9.2f M %7d %9.2f ms %7d KiB %7d KiB\n", name, n / 1e6, n / count, t / 1e6, peak, before }'
}

# grows_within NAME MOST FIRST LAST RULE: stops if LAST is more than MOST times FIRST, and a quarter of that.
grows_within() {
    awk -v program="$(basename "$0")" -v name="$1" -v most="$2" -v first="$3" -v last="$4" -v rule="$5" 'BEGIN {
        if (last > 1.25 * most * first) {
            print program ": " name " grows faster than " rule ", by more than a quarter" >"/dev/stderr"
            exit 1
        }
    }'
}

# grows_slowly NAME COUNT FIRST LAST: stops if the instructions for four times COUNT names are more than n log n allows.
grows_slowly() {
    grows_within "$1" "$(awk -v count="$2" 'BEGIN { print 4 * log(4 * count) / log(count) }')" "$3" "$4" 'n log n'
}

missed=0
goals=()

# goal TEXT FOUND MOST UNIT [QUOTIENT]: notes a goal and whether it was kept, and the same quotient of instructions.
goal() {
    local kept=kept
    if awk -v found="$2" -v most="$3" 'BEGIN { exit !(found > most) }'; then
        kept=MISSED
        missed=1
    fi
    goals+=("$(printf '%-56s %6.2f of %6.2f %-5s %-6s %s' "$1" "$2" "$3" "$4" "$kept" "${5:+(instructions $5)}")")
}

# ends_with_goals: prints the goals, and exits with 1 if one was missed.
ends_with_goals() {
    echo
    printf '%s\n' "${goals[@]}"
    exit "$missed"
}

# quotient A B
quotient() { awk -v a="$1" -v b="$2" 'BEGIN { printf "%.3f", a / b }'; }
