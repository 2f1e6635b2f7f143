# What compare/run, compare/bench and compare/fuzz share. Sourced with the repository's root as the working directory.

original=../shared/docs/src
captures=../shared/captures
quic=boringtun/src/noise/quic
build=target/compare
library=target/staticlib/libcrustdelta_c.a
c_flags=(-std=c99 -pedantic -Wall -Wextra -Werror -O1 -g -Iinclude)

stop() {
    printf 'compare/%s: %s\n' "${0##*/}" "$1" >&2
    exit 2
}

# Stops where something is missing that the comparison needs.
look_around() {
    [[ -d $original ]] || stop "$original is not there (looked from the repository's root); the original Rust is needed to compare with"
    [[ -d $captures ]] || stop "$captures is not there (looked from the repository's root); real lists of frames and hellos are read from it"
    command -v rustc >/dev/null || stop 'rustc is not there; it builds the original Rust'
    command -v cc >/dev/null && command -v c++ >/dev/null || stop 'cc and c++ are not there; they build the test of the C library'
    command -v rt >/dev/null || stop 'rt is not there; it builds our library'
}

# Our driver and the four files of the original, unchanged, as the source of one crate.
take_sources() {
    local file
    rm -rf "$build"
    mkdir -p "$build"
    cp -R compare/src "$build/src"
    mkdir -p "$build/src/noise/quic/testdata"
    for file in varint profiles tls fingerprint; do
        [[ -f $original/$quic/$file.rs ]] || stop "$original/$quic/$file.rs is not there; the original Rust is needed to compare with"
        cp "$original/$quic/$file.rs" "$build/src/noise/quic/$file.rs"
    done
    # fingerprint.rs includes two captures that were not published with it and that nothing here reads.
    : >"$build/src/noise/quic/testdata/chrome_147_initial.bin"
    : >"$build/src/noise/quic/testdata/firefox_149_initial.bin"
}

rust() {
    rustc --edition 2021 -C opt-level=3 -L "$build" "$@"
}

# The crates that the original names: ours, empty of work (README.md says why each is needed).
build_stubs() {
    local name
    for name in rand_core rand_chacha ring; do
        rust --crate-type rlib --crate-name "$name" --out-dir "$build" "$build/src/stubs/$name.rs"
    done
}

# The C library, and the calls beside it that only compare/ asks.
build_archives() {
    tools/build archives
}

# `--cfg test` on an ordinary binary keeps `varint::read` and the whole of fingerprint.rs, which are for tests in the
# original. Newer compilers refuse the flag unless the lint is allowed, and older ones do not know the lint.
link_driver() {
    rust --cfg test -A unknown_lints -A explicit_builtin_cfgs_in_flags \
        --extern rand_core --extern rand_chacha --extern ring \
        -L native=target/staticlib -l static=crustdelta_c -l static=compare_calls \
        -o "$build/driver" "$build/src/main.rs"
}

# Writes $build/driver.
build_driver() {
    look_around
    take_sources
    build_stubs
    build_archives
    link_driver
}

# The C library as C and C++ see it: the header alone, the example with the output that README shows, and the cases of c/test.c. valgrind
# watches what the archive itself reads and writes; the address sanitizer, where there is no valgrind, only the caller.
test_c() {
    cc "${c_flags[@]}" -x c -fsyntax-only include/crustdelta.h
    c++ -std=c++11 -pedantic -Wall -Wextra -Werror -x c++ -fsyntax-only include/crustdelta.h
    cc "${c_flags[@]}" -o "$build/sender" examples/sender.c "$library"
    "$build/sender" | diff compare/c/sender.stdout -
    if command -v valgrind >/dev/null; then
        cc "${c_flags[@]}" -o "$build/test" compare/c/test.c "$library"
        valgrind -q --error-exitcode=1 --leak-check=full "$build/test"
    else
        cc "${c_flags[@]}" -fsanitize=address,undefined -o "$build/test" compare/c/test.c "$library"
        "$build/test"
    fi
}
