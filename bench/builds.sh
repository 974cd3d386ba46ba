# Sourced by the benchmarks that call the library and the twin in one process; needs tests/kit.sh, and root, work and archive. The times are
# taken with five builds that differ only in where the code lies, since the emulator is slower with code that crosses a page: the median
# over them counts, and the lowest and the highest are printed too.

# built NAME BUILD: the program of bench/NAME.c, with so many bytes before the twin, and between it and the library, as the build says
built() {
    echo "__asm__(\".text; .space $(($2 * 832))\");" >"$work/before.c"
    echo "__asm__(\".text; .space $(($2 * 1984))\");" >"$work/between.c"
    "$root/tests/build_c" "$work/$1" "$root/bench/$1.c" "$work/before.c" "$root/tests/twin/twin.c" "$work/between.c" "$archive"
}

# middle JOB COLUMN: the median of a column of a job's lines over the five builds
middle() { grep -hF "$1	" "$work"/*.times | cut -f "$2" | sort -n | sed -n 3p; }

# ends JOB COLUMN: the lowest and the highest
ends() { grep -hF "$1	" "$work"/*.times | cut -f "$2" | sort -n | sed -n '1p;5p' | paste -s -d ' ' | sed 's/ / to /'; }
