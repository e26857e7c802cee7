# What screen/build and chooser/build have in common; they read this file. It wants of them
#
#   builder   the name that messages begin with
#   root      the root of the sources, and library, the static library there
#   output    the program to build
#   made_of   whatever the program is made of, as one line: before `end_if_made` and `put_in_place`
#
# and gives them `work`, a folder that goes when the builder ends, `flags` for the compiler, and the steps below.
shared=$root/command/compiling.sh
flags="-std=c11 -O2 -Wall -Wextra -Werror ${CFLAGS-}"

fail() {
    echo "$builder: $1" >&2
    exit 2
}

work=$(mktemp -d) || exit 2
trap 'rm -rf "$work"' EXIT
trap 'exit 2' HUP INT TERM

# Sees that the static library is there.
need_library() {
    [ -f "$library" ] && return
    echo "$builder: proving and building the static library, once (this takes some minutes)" >&2
    (cd "$root" && python3 -B -m command.built library) >&2
    [ -f "$library" ] || fail "$library could not be built"
}

# What stands beside a program: what it is made of, and its own sum, so that another file at its place is built over.
record_of() {
    printf '%s\n' "$made_of" && cksum <"$1"
}

# Ends well where the program was built of the same before.
end_if_made() {
    [ -x "$output" ] && [ "$(cat "$output.made_of" 2>/dev/null)" = "$(record_of "$output")" ] && exit 0
}

# Compiles a small program, so that what is missing is told from what is wrong in the sources.
try_compiler() { # the program, its libraries, what to say if it does not compile
    printf '%b\n' "$1" >"$work/try.c"
    ${CC-cc} "$work/try.c" -o "$work/try" $2 2>"$work/why" || {
        cat "$work/why" >&2
        fail "$3"
    }
}

# Puts the program compiled as $work/program in its place whole, and then its record.
put_in_place() {
    new=$output.new$$ # another build may run at the same time
    cp "$work/program" "$new" && mv -f "$new" "$output" &&
        record_of "$work/program" >"$new" && mv -f "$new" "$output.made_of" || {
        rm -f "$new"
        fail "cannot write $output"
    }
}
