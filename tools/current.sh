# Which program is current, for scripts that are at the top of the repository: . tools/current.sh
proved=crates/dpmi/out/dpmi
unproved=out/unproved/dpmi
unfinished=crates/dpmi/out/unfinished # is there from a proof's beginning to its end: then the proved program may be half written

# is_newest PROGRAM PART..: whether the program is there, and none of these parts of its crates is newer.
is_newest() {
    [ -x "$1" ] || return
    program=$1
    shift
    folders=$(awk -v parts="$*" -f tools/parts.awk crates.txt) && [ -n "$folders" ] || return
    [ -z "$(find crates.txt $folders -newer "$program" -print -quit 2>/dev/null)" ]
}

is_proved() { [ ! -e $unfinished ] && is_newest $proved src specs proofs; }

is_compiled() { is_newest $unproved src; }
