# Sourced by the tests' and the benchmarks' scripts: the kit's tools; `program`, which runs what it built; the programs and the archive.
. "$(dirname "${BASH_SOURCE[0]}")/../share/kit.sh"

# the words that stand before a program, for what isn't a shell
runner=(${emulator:+"$emulator"} "$lib/ld-linux-x86-64.so.2" --library-path "$lib")

# the crates; a program NAME stands in $crates/NAME/out/NAME, where `rt ci`, or `rt run` in its folder, has built it
crates=$(cd "$(dirname "${BASH_SOURCE[0]}")/../crates" && pwd)

# zhaqsumir_archive FILE: proves and builds the library that C links, and puts it there; all that rt says goes to standard output
zhaqsumir_archive() { (cd "$crates/zhaqsumir_c" && rt lib 2>&1) && cp "$crates/zhaqsumir_c/out/libzhaqsumir_c.a" "$1"; }

# proved NAME: proves and builds a program, and runs it on nothing; all that rt says goes to standard output
proved() { (cd "$crates/$1" && rt run </dev/null 2>&1); }
