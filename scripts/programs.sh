# Sourced, with the repository's folder in `root`: program NAME and planner_library see that target/bin/NAME and
# target/staticlib/libplanner.a are there and no source is newer. rt ci builds the programs and no archive, and takes all
# that lies in the crates' out/ away when it begins, so what is used is copied to target/. While rt ci runs, what is called
# here waits.
sources=("$root/crates.txt" "$root"/crates/*/{src,specs,proofs})

# Whether the file is there, and no source is newer than it.
is_newest() { # FILE
    [ -f "$1" ] && [ -z "$(find "${sources[@]}" -type f -newer "$1" -print -quit 2>/dev/null)" ]
}

# Puts a file in its place in one step, as old as it is.
put_built() { # FILE PLACE
    mkdir -p "$(dirname "$2")" && cp -p "$1" "$2.part" && mv -f "$2.part" "$2"
}

# Proves and builds a program, which then runs once, on no input.
prove_program() { # NAME
    (cd "$root/crates/$1" && rt run </dev/null >/dev/null) && touch "$root/crates/$1/out/$1"
}

program() { # NAME
    local made=$root/crates/$1/out/$1 place=$root/target/bin/$1
    is_newest "$place" || { { is_newest "$made" || prove_program "$1"; } && put_built "$made" "$place"; }
}

planner_library() {
    local made=$root/crates/planner_c/out/libplanner_c.a place=$root/target/staticlib/libplanner.a
    is_newest "$place" || { (cd "$root/crates/planner_c" && rt lib) >&2 && touch "$made" && put_built "$made" "$place"; }
}
