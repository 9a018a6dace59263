# Sourced: runner PROGRAM sets `run` to the words that run the program on this machine. A program is for x86-64;
# elsewhere the kit's emulator runs it, under the kit's C library, as the plainest processor of the kind: what is moved
# there by single instructions of another is emulated byte by byte.
runner() { # PROGRAM
    local machine tools
    machine=$(uname -m)
    run=("$1")
    if [ "$machine" != x86_64 ]; then
        tools=$(dirname -- "$(rt doc)")/on/$machine/toolchain
        run=("$tools/bin/qemu-x86_64" -cpu qemu64 "$tools/lib/ld-linux-x86-64.so.2" --library-path "$tools/lib" "$1")
    fi
    [ -x "${run[0]}" ]
}
