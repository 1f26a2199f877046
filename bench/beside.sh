# What the scripts bench/held, bench/nameless, bench/cut and bench/names share: they run a guest, bench/guests/files.elf if they name no
# other as `guest`, in an empty file tree, or in that of the document that they name as `tree`.
#
# The program is the proved one, which the command builds where it is not there; the variable PROGRAM names another one. Times are of
# the processor, as the system counts them for the program; other work on the computer still changes them.
set -eu

top=$(dirname "$(dirname "$(readlink -f "${BASH_SOURCE[0]}")")")
program=${PROGRAM-$top/crates/cloudabi_run/out/cloudabi_run}
guest=$top/bench/guests/files.elf

work=$(mktemp -d)
trap 'rm -rf "$work"' EXIT
tree=$work/empty
: >"$tree"

# Runs the guest once with this argument data, behind these words of a command.
run_guest() {
    local arguments=$1
    shift
    echo "{in: !file {path: ''}, $arguments}" >"$work/launch.yaml"
    if ! "$@" "$program" --turns 1000000 --tree "$tree" "$guest" <"$work/launch.yaml" >"$work/report"; then
        echo "bench: {$arguments} ends with '$(sed -n 's/^== status //p' "$work/report")', not with 'exit 0'" >&2
        exit 1
    fi
}

# Sets `micros` to the processor time of the fastest of three runs with this argument data, in microseconds.
time_best() {
    local TIMEFORMAT='%U %S' spent run now
    micros=
    for run in 1 2 3; do
        spent=$({ time run_guest "$1" env; } 2>&1)
        now=$(awk -v spent="$spent" 'BEGIN { split(spent, part, " "); printf "%d", (part[1] + part[2]) * 1000000 + 0.5 }')
        if [ -z "$micros" ] || [ "$now" -lt "$micros" ]; then
            micros=$now
        fi
    done
}

# Sets `each` to how many microseconds one of so many things takes, less what a run takes that does none.
time_each() {
    local none
    time_best "$2: 0, others: $3"
    none=$micros
    time_best "$2: $1, others: $3"
    each=$(awk -v all="$micros" -v none="$none" -v times="$1" 'BEGIN { print (all - none) / times }')
}

# Prints the ratio of two figures, the larger size's first.
print_ratio() {
    awk -v name="$1" -v large="$2" -v small="$3" -v unit="$4" 'BEGIN { printf "%s %.2f (%.2f %s over %.2f)\n", name, large / small, large, unit, small }'
}

# The command builds the program.
[ -n "${PROGRAM-}" ] || "$top/cloudabi-run" "$top/examples/hello/hello.elf" <"$top/examples/hello/launch.yaml" >/dev/null
