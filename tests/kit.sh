# What tests/run and bench/run share: the archive of the C interface, and programs linked with it. Sourced by bash from the
# project's top. Rattle compiles for x86-64 alone: the system's C compiler links the archive, and programs run directly.

archive=crates/exports/out/libexports.a
built=target/outside
mkdir -p "$built"

# Makes the archive, and a copy of it under the name that the examples link, $built/libcanon.a.
build_archive() { # [FLAGS..]
    (cd crates/exports && rt lib "$@") >"$built/lib.log" 2>&1 </dev/null || { cat "$built/lib.log"; return 1; }
    cp "$archive" "$built/libcanon.a"
}

# Compiles a C file and links it with the archive.
build_c() { # FILE.c PROGRAM [FLAGS..]
    local file=$1 program=$2
    shift 2
    cc -std=c11 -Wall -Wextra -O2 -Iinclude "$@" "$file" "$archive" -o "$program"
}

# The same as C++.
build_cpp() { # FILE.c PROGRAM [FLAGS..]
    local file=$1 program=$2
    shift 2
    c++ -x c++ -std=c++11 -Wall -Wextra -pedantic -O2 -Iinclude "$@" "$file" -x none "$archive" -o "$program"
}
