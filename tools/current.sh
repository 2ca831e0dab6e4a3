# Whether the program twins of a checkout is current. The launcher and .ci/run read this file, with the folder of the
# checkout in `top`. The program is current where a stamp stands beside it that no source is newer than; the stamp has
# the time at which its proof began.
program=$top/crates/twins/out/twins
built=$top/crates/twins/out/built.stamp

newer_source() {        # a source that is newer than this file, or nothing
    find "$top/crates.txt" "$top/crates" \( -name out -o -name must-fail \) -prune -o \
        -type f \( -name '*.rt' -o -name '*.antt' -o -name crates.txt \) -newer "$1" -print | head -n 1
}

is_current() {
    [ -x "$program" ] && [ -f "$built" ] && [ -z "$(newer_source "$built")" ]
}

mark_current() {        # where the program is there, and no source is newer than this file of when its proof began
    [ -x "$program" ] && [ -z "$(newer_source "$1")" ] && touch -r "$1" "$built"
}
