# Builds the proved checker's archive and installs it. Sourced by run and install, with `harness` set to this folder.
#
# The kit, and so its archive, is for x86-64.
# shellcheck shell=sh

top=$(cd "$harness/.." && pwd -P)
machine=$(uname -m)
built=$harness/target/run
kit_archive=$top/crates/exports/out/libexports.a
module=$top/crates/exports/out/module.bc

say() { printf 'harness: %s\n' "$*"; }

fail() {
    say "FAILED: $*" >&2
    exit 1
}

# Shows what a command says only if it fails.
quietly() {
    mkdir -p "$built"
    "$@" >"$built/said" 2>&1 || { cat "$built/said"; return 1; }
}

is_foreign() { [ "$machine" != x86_64 ]; }

find_kit() {
    command -v rt >/dev/null || fail 'no rt on the path'
    is_foreign && fail 'the kit is for x86-64 alone'
    own=$(dirname "$(rt doc)")
    tools=$own/toolchain
}

# Proves the checker and writes the kit's archive of it.
build_archive() {
    (cd "$top/crates/exports" && rt lib)
}

# Makes an archive for this machine's processor of the module.
compile_module() { # ARCHIVE
    object=$built/ikhzorvan.o
    quietly "$tools/bin/clang" "--target=$machine-unknown-linux-gnu" -Wno-override-module -O3 -fPIC \
        -c -x ir "$module" -o "$object" &&
        rm -f "$1" &&
        "$tools/bin/llvm-ar" rcs "$1" "$object"
}

# Puts an archive for this machine's processor, the header and a file for pkg-config below a folder, by its absolute name.
install_to() { # PREFIX
    mkdir -p "$1/lib/pkgconfig" "$1/include" || return
    if is_foreign; then
        compile_module "$1/lib/libikhzorvan.a" || return
    else
        cp "$kit_archive" "$1/lib/libikhzorvan.a" || return
    fi
    cp "$top/include/ikhzorvan.h" "$1/include/ikhzorvan.h" &&
        cat >"$1/lib/pkgconfig/ikhzorvan.pc" <<EOF
prefix=$1
libdir=\${prefix}/lib
includedir=\${prefix}/include

Name: ikhzorvan
Description: The proved checker of atomicity: grades each method of a program with locks
Version: 0.1.0
Cflags: -I\${includedir}
Libs: -L\${libdir} -likhzorvan
EOF
}
