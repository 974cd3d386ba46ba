# Sourced by the command and by the tests' scripts: where the kit's tools stand, and how a program that it built is run. Programs are
# x86-64; where a kit for another machine has an emulator, that runs them.
kit=$(cd "$(dirname "$(readlink -f "$(command -v rt)")")/.." && pwd)
tools=$kit/toolchain
lib=$tools/lib
emulator=$tools/bin/qemu-x86_64
[ -x "$emulator" ] || emulator=
program() { ${emulator:+"$emulator"} "$lib/ld-linux-x86-64.so.2" --library-path "$lib" "$@"; }
