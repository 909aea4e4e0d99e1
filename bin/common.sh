# What `bin/world` and `bin/prove` share. Both source it, with `top` set to the folder of the repository.

program=$top/crates/world/out/world

# How long it takes to prove and build the program where nothing is proved yet.
proving_time='about 25 minutes on four processors'

# Whether the proved program isn't there or a source is newer. Folders are compared as well as files, so
# that a removed file counts as a change.
is_stale() {
    shopt -s nullglob
    [ ! -x "$program" ] ||
        [ -n "$(find "$top/crates.txt" "$top"/crates/*/{src,specs,proofs} -newer "$program" -print -quit)" ]
}
