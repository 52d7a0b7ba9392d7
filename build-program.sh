# shellcheck shell=sh disable=SC2154
# Read in by finder and putter, which set me, their own name, and home, the folder that they stand in.

fail() {
    printf '%s: %s\n' "$me" "$1" >&2
    exit 2
}

need_kit() {
    command -v rt >/dev/null 2>&1 || fail 'rt, the command of the kit, is not on the path'
}

# How many crates the program is made of.
count_crates() {
    awk -v program="$name" -F '[ \t]*:' '
        function visit(crate, deps, n) {
            if (!(crate in needs) || seen[crate]++) return
            count++
            for (n = split(needs[crate], deps, " "); n > 0; n--) visit(deps[n])
        }
        { sub(/#.*/, ""); needs[$1] = $2 }
        END { visit(program); print count }' crates.txt
}

# Passes on what rt prints, and says on a terminal how far it is.
follow_proofs() {
    done_crates=0
    while IFS= read -r line; do
        printf '%s\n' "$line"
        case $line in
        'crate '*': modules '*) ;;
        *) continue ;;
        esac
        done_crates=$((done_crates + 1)) crate=${line#crate }
        [ ! -t 2 ] || printf '\r%s: crate %s of %s is proved: %-12s' "$me" "$done_crates" "$1" "${crate%%:*}" >&2
    done
    [ ! -t 2 ] || printf '\n' >&2
}

# The first file of the crates that is newer than the program; what rt keeps in a crate's out/ does not count.
changed() {
    find crates crates.txt -name out -prune -o -newer "$built" -print 2>/dev/null | head -n 1
}

# Proves and builds the program if there is none, or if the crates have changed since. rt runs what it has built, with no arguments and no input.
build() {
    if [ -x "$program" ] && [ -e "$built" ] && [ -z "$(changed)" ]; then
        return
    fi
    need_kit
    [ ! -t 2 ] || printf '%s: proving and building %s, about six minutes the first time\n' "$me" "$name" >&2
    { (cd "crates/$name" && rt run </dev/null) 2>&1 || : >"$room/failed"; } | follow_proofs "$(count_crates)" >"$room/said"
    if [ -e "$room/failed" ]; then
        cat "$room/said" >&2
        fail "$name could not be proved and built"
    fi
    mkdir -p target/bin && cp "crates/$name/out/$name" "$program" || fail "$name could not be copied to target/bin"
    : >"$built"
}

# How the program is run: it is for x86-64, and on another processor the kit has an emulator, with a loader and a C library.
find_runner() {
    emulator='' tools=''
    [ "$(uname -m)" != x86_64 ] || return 0
    need_kit
    tools=$(dirname "$(rt doc)")/on/$(uname -m)/toolchain
    emulator=$tools/bin/qemu-x86_64
    [ -x "$emulator" ] || fail "$name is for x86-64, and the kit has no emulator for this machine"
}

# prepare NAME: the program NAME is there to be run, and $room is a folder that lasts as long as this does.
prepare() {
    name=$1 program=$home/target/bin/$1 built=$home/target/built-$1
    room=$(mktemp -d) || fail 'no temporary folder can be made'
    trap 'rm -rf "$room"' EXIT
    trap 'exit 130' INT TERM HUP
    (cd -- "$home" && build) || exit 2
    find_runner
}

run_program() {
    if [ -n "$emulator" ]; then
        "$emulator" "$tools/lib/ld-linux-x86-64.so.2" --library-path "$tools/lib" "$program" "$@"
    else
        "$program" "$@"
    fi
}
