# Sourced by the command: builds a proved program where it isn't there or its sources differ, and runs it. What the command runs
# stands in target/run: each program under a name with the sum of its sources, and what a program needs to run, copied from the kit. A
# program is put there whole, by one move, so a build that is stopped leaves the old one or none, and once it is there the kit isn't
# needed. Needs $here, the repository's folder.
run=$here/target/run
needs=$run/$(uname -m 2>/dev/null)

# crates_of PROGRAM: the crates that it stands on, each after those that it stands on itself
crates_of() {
    awk -v wanted="$1" '
        function visit(crate,    list, count, at) {
            if (crate in seen || !(crate in below)) return
            seen[crate] = 1
            count = split(below[crate], list, " ")
            for (at = 1; at <= count; at++) visit(list[at])
            print crate
        }
        { sub(/#.*/, "") }
        /:/ { name = $0; sub(/:.*/, "", name); sub(/^[^:]*:/, ""); below[name] = $0 }
        END { visit(wanted) }' "$here/crates.txt"
}

# sum_of PROGRAM: a sum over all its sources
sum_of() {
    (
        cd -- "$here" || exit
        crates=$(crates_of "$1") && [ -n "$crates" ] || exit
        folders=$(for crate in $crates; do printf 'crates/%s ' "$crate"; done)
        sums=$(find $folders -type d \( -name must-fail -o -name out \) -prune -o -type f -exec sha256sum {} +) || exit
        printf '%s\n' "$crates" "$sums" | LC_ALL=C sort | sha256sum | cut -c 1-16
    ) 2>/dev/null
}

# say MESSAGE: something to know while one waits
say() { printf 'zhaqsumir: %s\n' "$1" >&2; }

# built: whether the program is there, with what it needs to run
built() { [ -x "$built_program" ] && [ -x "$needs/ld-linux-x86-64.so.2" ] && [ -r "$needs/libc.so.6" ]; }

# build PROGRAM: sets built_program, and proves and builds it where it has to be; one command at a time
build() {
    for tool in uname awk find sha256sum sort cut; do
        command -v "$tool" >/dev/null 2>&1 || fail "$1 needs $tool, which isn't on the path"
    done
    sum=$(sum_of "$1") && [ -n "$sum" ] || fail "the sources of $1 can't be read"
    built_program=$run/$1-$sum
    built && return
    command -v rt >/dev/null 2>&1 || fail "$1 isn't built, and the Rattle kit's command rt, which builds it, isn't on the path"
    mkdir -p "$needs" 2>/dev/null && (: >"$run/lock") 2>/dev/null ||
        fail "$1 isn't built, and can't be: $here/target can't be written"
    exec 9>"$run/lock"
    if command -v flock >/dev/null 2>&1 && ! flock -n 9; then
        say "another zhaqsumir is building; this one waits for it"
        flock 9
    fi
    built || build_now "$1"
    exec 9>&-
}

# build_now PROGRAM: proves and builds it
build_now() {
    proved "$1" || {
        tail -n 20 "$run/log" >&2
        fail "$1 could not be built"
    }
    [ "$(sum_of "$1")" = "$sum" ] || fail "the sources of $1 changed while it was built; type it again"
    put_in_place "$1" 2>/dev/null || fail "$1 is built, but can't be copied to $run"
}

# proved PROGRAM: rt proves and builds it, and runs it on nothing; each crate that it proves is named; all that rt says goes to
# target/run/log
proved() {
    below=$(crates_of "$1")
    total=$(printf '%s\n' "$below" | wc -l)
    say "building $1, which proves what it stands on first: $total crates, two to four minutes if none is proved yet"
    began=$(date +%s%N)
    (
        cd -- "$here/crates/$1" && (exec rt run </dev/null 2>&1)
        echo "status $?"
    ) 2>/dev/null | while IFS= read -r line; do
        case $line in
        'status 0') exit 0 ;;
        'status '*) exit 1 ;;
        esac
        printf '%s\n' "$line"
        case $line in
        'crate '*': '*)
            crate=${line#crate }
            crate=${crate%%:*}
            ;;
        'logic=proved '*)
            now=$(date +%s%N)
            say "$(printf '%s\n' "$below" | awk -v name="$crate" '$0 == name { print NR }') of $total crates: $crate proved ($(((now - began) / 1000000000)) s)"
            began=$now
            ;;
        esac
    done >"$run/log"
}

# put_in_place PROGRAM: the built program and what it needs to run, each moved to its place whole; older ones go
put_in_place() {
    . "$here/share/kit.sh"
    for file in "$lib/ld-linux-x86-64.so.2" "$lib/libc.so.6" $emulator; do
        cp "$file" "$needs/new" && mv -f "$needs/new" "$needs/${file##*/}" || return
    done
    cp "$here/crates/$1/out/$1" "$run/new" && mv -f "$run/new" "$built_program" || return
    for file in "$run/$1"-*; do [ "$file" = "$built_program" ] || rm -f "$file"; done
}

# run_built WORD..: runs the program with these words
run_built() {
    emulator=$needs/qemu-x86_64
    [ -x "$emulator" ] || emulator=
    ${emulator:+"$emulator"} "$needs/ld-linux-x86-64.so.2" --library-path "$needs" "$built_program" "$@"
}
