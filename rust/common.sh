# Part of rust/test and ./bench: what both need of the machine, installed where it is missing.
#
# Whoever reads this file has set `rust`, `root` and `machine`, and `asker`, the name that messages begin with.
#
#   STAMENHUM_LIB       the folder of a libportal.a that is there already; else `rt lib` in crates/portal_c makes one
# shellcheck shell=bash

say() { echo "$asker: $*"; }
fail() {
    say "FAILED: $*"
    exit 1
}

as_root() {
    if [ "$(id -u)" = 0 ]; then
        "$@"
    else
        sudo "$@"
    fi
}

# Installs the first of some packages that can be had, and answers whether one could.
can_install_one_of() {
    local package
    as_root apt-get update || say "apt-get update failed; going on with the lists that are there"
    for package in "$@"; do
        say "installing $package"
        if as_root env DEBIAN_FRONTEND=noninteractive apt-get install -y --no-install-recommends "$package"; then
            return
        fi
    done
    return 1
}

install_one_of() {
    can_install_one_of "$@" || fail "none of these packages could be installed: $*"
}

# Debian's cargo-web follows the browsers and is newer than its cargo.
need_cargo() {
    command -v cargo >/dev/null || install_one_of cargo-web cargo
    command -v cargo >/dev/null || fail "there is no cargo"
    say "$(cargo --version)"
}

# Rust's own way to link goes through a C compiler.
need_linker() {
    command -v cc >/dev/null || install_one_of gcc
    echo 'int main(void) { return 0; }' | cc -x c -o /dev/null - 2>/dev/null || install_one_of libc6-dev
}

# make_library TREE: the static library of a checkout, proved and built, as TREE/target/staticlib/libportal.a.
make_library() {
    (cd "$1/crates/portal_c" && rt lib) || return 1
    mkdir -p "$1/target/staticlib" && cp "$1/crates/portal_c/out/libportal_c.a" "$1/target/staticlib/libportal.a"
}

need_library() {
    if [ -n "${STAMENHUM_LIB:-}" ]; then
        STAMENHUM_LIB=$(cd "$STAMENHUM_LIB" && pwd -P) || fail "STAMENHUM_LIB is no folder"
    else
        command -v rt >/dev/null || fail "the Rattle toolchain's command rt is not on the PATH, and STAMENHUM_LIB is not set"
        say "rt lib in crates/portal_c"
        make_library "$root" || fail "the library could not be made"
        STAMENHUM_LIB=$root/target/staticlib
    fi
    export STAMENHUM_LIB
    [ -f "$STAMENHUM_LIB/libportal.a" ] || fail "there is no $STAMENHUM_LIB/libportal.a"
}
