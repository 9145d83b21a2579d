# What the scripts of this folder share. A script that sources this file is in the top folder of the repository afterwards,
# and $made is a folder for its files, which is removed at its end. PROGRAM and TILESOLVE can name programs that are built
# already.
set -euo pipefail
shopt -s inherit_errexit
export LC_ALL=C
# All programs use large pages and keep 64 MB from line to line, as ./tilesolve does. An empty value turns both off.
export GLIBC_TUNABLES=${GLIBC_TUNABLES-glibc.malloc.hugetlb=1:glibc.malloc.trim_threshold=67108864}

script=$(realpath -- "$0")
name=${script##*/}

fail() {
    printf 'bench/%s: %s\n' "$name" "$1" >&2
    exit 1
}

# Prints how the script is called, from the end of its first comment.
usage() {
    sed -n '/^# usage:/,/^[^#]/s/^# //p' "$script"
}

# Ends the script with its usage and the exit status 2, unless the arguments are at most `most` numbers from 1 to
# 999,999,999. If --help is the only one, the exit status is 0.
take_numbers() {
    local most=$1 are_right argument
    shift
    if [[ $* == --help ]]; then
        usage
        exit
    fi
    are_right=$(($# <= most))
    for argument; do
        [[ $argument =~ ^[1-9][0-9]{0,8}$ ]] || are_right=0
    done
    if ((!are_right)); then
        usage >&2
        exit 2
    fi
}

# Relative paths are relative to the folder of the caller.
for given in PROGRAM TILESOLVE; do
    if [[ -n ${!given-} ]]; then
        path=$(realpath -m -- "${!given}")
        [[ -f $path && -x $path ]] || fail "$given names no program: ${!given}"
        printf -v "$given" %s "$path"
    fi
done

cd -- "$(realpath -- "${BASH_SOURCE[0]%/*}/..")"
made=$(mktemp -d)
trap 'rm -rf "$made"' EXIT

# Builds plain programs of this folder, $made/NAME of each NAME.rs, for the processor that rt builds for. Then sets
# $program to PROGRAM or, if that is empty, to the program of a crate, which it proves, builds and runs.
#
# usage: build CRATE [NAME..]
build() {
    local crate=$1 each
    shift
    for each; do
        rustc --edition 2024 -C opt-level=3 -C target-cpu=x86-64-v2 -o "$made/$each" "bench/$each.rs" ||
            fail "bench/$each.rs was not built"
    done
    program=${PROGRAM-}
    [[ -z $program ]] || return 0
    program=$PWD/crates/$crate/out/$crate
    if ! (cd "crates/$crate" && rt run) >"$made/log" 2>&1 <"crates/$crate/stdin"; then
        cat "$made/log" >&2
        fail "$crate was not proved, built and run"
    fi
}

# Runs a script in Python from standard input with these arguments. It can import the modules of this folder.
run_python() {
    SCRIPT=bench/$name PYTHONPATH=bench python3 -B - "$@"
}

# The rest is for scripts that time a part of bench_searches, $part, beside the same part of bench/kernels.rs.

proved() {
    "$program" "$part" "$@"
}

plain() {
    "$made/kernels" "$part" "$@"
}

# Fails if the programs don't print the same for the same arguments.
compare() {
    local ours theirs
    ours=$(proved "$@") || fail "the proved program fails at $part $*"
    theirs=$(plain "$@") || fail "the plain program fails at $part $*"
    [[ $ours == "$theirs" ]] || fail "the programs differ at $part $*"$'\n'"$ours"$'\n'"$theirs"
}

# Sets `taken` to the milliseconds of processor time that `proved` or `plain` takes with these arguments.
time_of() {
    local TIMEFORMAT=%3U
    if ! taken=$({ time "$@" >/dev/null 2>"$made/errors"; } 2>&1); then
        cat "$made/errors" >&2
        fail "the $1 program fails at $part ${*:2}"
    fi
    taken=$((10#${taken/./}))
}

# Sets proved_time and plain_time to the least that each program takes in `runs` runs with the same arguments.
least_times() {
    local runs=$1 run
    shift
    proved_time=''
    plain_time=''
    for ((run = 0; run < runs; run++)); do
        time_of proved "$@"
        proved_time=$((${proved_time:-taken} < taken ? proved_time : taken))
        time_of plain "$@"
        plain_time=$((${plain_time:-taken} < taken ? plain_time : taken))
    done
}

# Processor time is counted in steps of up to 10 ms. Less than this is too short for a ratio.
least_milliseconds=100

# Prints the nanoseconds that each program takes for one of `count` things, and their ratio. Fails if the ratio is above
# `most`, or if the plain program's time is too short.
#
# usage: print_ratio LABEL THING COUNT MOST [DIGITS]
print_ratio() {
    awk -v label="$1" -v thing="$2" -v count="$3" -v most="$4" -v digits="${5:-1}" -v proved="$proved_time" \
        -v plain="$plain_time" -v least="$least_milliseconds" 'BEGIN {
        if (plain < least) {
            print label ": too few " thing "s to time"
            exit 1
        }
        slow = proved > most * plain
        printf "%s: proved %." digits "f ns a %s, plain %." digits "f ns, ratio %.2f%s\n", label, proved * 1e6 / count,
            thing, plain * 1e6 / count, proved / plain, slow ? ", above " most : ""
        exit slow
    }'
}
