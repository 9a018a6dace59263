# Sourced: planner_archive makes the planner's archive where it is not there or older than the planner; c_program PROGRAM
# SOURCE WORDS.. builds a C program over it with these words for the compiler. The archive is for x86-64; elsewhere the
# kit's compiler and linker build the program, with the machine's own headers, and scripts/runner.sh says how it runs.
# LINDURASK_ARCHIVE names another archive.
root=$(cd "$(dirname "${BASH_SOURCE[0]}")/.." && pwd)
. "$root/scripts/programs.sh"
archive=${LINDURASK_ARCHIVE:-target/staticlib/libplanner.a}

planner_archive() {
    [ -n "${LINDURASK_ARCHIVE:-}" ] || planner_library
}

c_program() { # PROGRAM SOURCE WORDS..
    local program=$1 source=$2 tools lib
    shift 2
    local words=(-std=c11 -Wall -Wextra -Werror -O2 -Iinclude "$@")
    mkdir -p "$(dirname "$program")"
    if [ "$(uname -m)" = x86_64 ]; then
        "${CC:-cc}" "${words[@]}" "$source" "$archive" -o "$program"
        return
    fi
    tools=$(dirname -- "$(rt doc)")/on/$(uname -m)/toolchain
    lib=$tools/lib
    "$tools/bin/clang" --target=x86_64-linux-gnu -fPIE "${words[@]}" -nostdlibinc -isystem "$(cc -print-file-name=include)" \
        -idirafter "/usr/include/$(cc -print-multiarch)" -idirafter /usr/include -c "$source" -o "$program.o"
    "$tools/bin/ld.lld" -pie -dynamic-linker /lib64/ld-linux-x86-64.so.2 -o "$program" \
        "$lib/Scrt1.o" "$lib/crti.o" "$lib/crtbeginS.o" "$program.o" "$archive" \
        "$lib/libc.so.6" "$lib/libc_nonshared.a" "$lib/libgcc.a" "$lib/crtendS.o" "$lib/crtn.o"
}
