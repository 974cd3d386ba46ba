# Sourced by the benchmarks that time whole programs; needs tests/kit.sh.

# clocked FILE PROGRAM [WORD...]: the microseconds of a run, whose output goes to the file
clocked() {
    local out=$1 began=$(date +%s%N)
    shift
    program "$@" >"$out"
    echo $((($(date +%s%N) - began) / 1000))
}

# the median of nine numbers, a line each
median() { sort -n "$1" | sed -n 5p; }

# ratio ONE OTHER: of two times
ratio() { awk "BEGIN { printf \"%.2f\", $1 / $2 }"; }
