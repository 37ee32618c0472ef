# Where the proved program `name` is, and whether it is current. Sourced with `root` set to the repository's folder.
program=$root/crates/$name/out/$name

# Whether the program is there and no older than what it is made from.
is_current() {
    [ -x "$program" ] && [ -z "$(find "$root/crates.txt" "$root"/crates/*/src "$root"/crates/*/specs \
        "$root"/crates/*/proofs -type f -newer "$program" -print -quit 2>/dev/null)" ]
}
