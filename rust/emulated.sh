# Part of rust/test: building Rust for x86-64 on a machine of another kind, and running it there.
#
# The installed compiler has no x86-64 standard library, but Debian's packages have one, together with the compiler it
# belongs to. They are unpacked below target/ and not installed; the package lists are kept there too, so nothing of
# the machine is changed. The toolchain that proves the library brings the linker and the C library; the emulator is the one on the PATH.
# shellcheck shell=bash

triple=x86_64-unknown-linux-gnu
debian=$root/target/debian-rust

# What cargo is told beside the variables that set_up_emulated exports. The portal's build script would have to run
# on this machine; what it would say of the library is said here in its stead.
for_x86_64=(
    --target "$triple"
    --config "target.$triple.portal.rustc-link-search=['native=$STAMENHUM_LIB']"
)

# The toolchain stands two folders above the file that the command rt is.
find_toolchain() {
    local home
    home=${RATTLE_HOME:-}
    if [ -z "$home" ]; then
        command -v rt >/dev/null || fail "the Rattle toolchain's command rt is not on the PATH"
        home=$(dirname "$(dirname "$(readlink -f "$(command -v rt)")")")
    fi
    tools=$home/toolchain
    [ -x "$tools/bin/ld.lld" ] || fail "the toolchain has no linker at $tools/bin/ld.lld"
    emulator=
    if [ "$machine" != x86_64 ]; then
        emulator=$(command -v qemu-x86_64) || fail "there is no qemu-x86_64 to run x86-64 programs with"
    fi
}

# apt-get and apt-cache over lists of our own, for this machine's packages and those of x86-64.
apt_here() {
    local command=$1
    shift
    "$command" -o Dir::State::Lists="$debian/lists" -o Dir::Cache="$debian/cache" \
        -o APT::Architectures::="$own" -o APT::Architectures::=amd64 -o APT::Sandbox::User=root "$@"
}

# Prints the packages that a package depends on, by name.
dependencies_of() {
    apt_here apt-cache depends --no-recommends --no-suggests "$1" |
        sed -n 's/^ *|\{0,1\}Depends: \([^<>: ]*\)$/\1/p'
}

# Adds a library's package to `packages`, and those of its dependencies that this machine lacks.
add_library() {
    local package=$1 name
    case " ${packages[*]} " in *" $package "*) return ;; esac
    packages+=("$package")
    for name in $(dependencies_of "$package"); do
        case $name in lib*) ;; *) continue ;; esac
        dpkg-query -W -f '${Status}' "$name" 2>/dev/null | grep -q '^install ok installed' || add_library "$name"
    done
}

# The compiler and what it loads for this machine; its standard library, of the same version, for x86-64.
choose_packages() {
    local version standard
    version=$(apt_here apt-cache show --no-all-versions rustc-web | awk '/^Version: / { v = $2 } END { print v }')
    [ -n "$version" ] || fail "Debian's lists have no rustc-web for $own"
    standard=$(dependencies_of libstd-rust-web-dev | awk '/^libstd-rust-web-[0-9]/ { s = $1 } END { print s }')
    [ -n "$standard" ] || fail "libstd-rust-web-dev does not say which libstd-rust-web it needs"
    packages=()
    add_library "$standard"
    packages+=("rustc-web=$version" "libstd-rust-web-dev:amd64=$version")
}

# Debian's compiler with an x86-64 standard library, below $debian/root.
unpack_compiler() {
    local package
    if [ -f "$debian/complete" ]; then
        say "Debian's Rust compiler is unpacked already"
        return
    fi
    own=$(dpkg --print-architecture)
    rm -rf "$debian"
    mkdir -p "$debian/lists/partial" "$debian/cache/archives/partial" "$debian/packages" "$debian/root"
    say "fetching Debian's package lists for $own and amd64 to target/"
    apt_here apt-get -q update || fail "the package lists could not be fetched"
    choose_packages
    say "fetching ${packages[*]}"
    (cd "$debian/packages" && apt_here apt-get -q download "${packages[@]}") || fail "packages could not be fetched"
    for package in "$debian"/packages/*.deb; do
        say "unpacking ${package##*/}"
        dpkg-deb -x "$package" "$debian/root" || fail "$package could not be unpacked"
    done
    rm -rf "$debian/packages" "$debian/lists" "$debian/cache"
    touch "$debian/complete"
}

# wrapper NAME LINE: a command of our own, in $debian/bin.
wrapper() {
    printf '#!/bin/sh\n%s\n' "$2" >"$debian/bin/$1"
    chmod +x "$debian/bin/$1"
}

# The compiler finds the libraries that were unpacked beside it.
write_compiler() {
    local libraries name
    libraries=$(find "$debian/root" -maxdepth 3 -type d -path '*/lib/*-linux-gnu' -printf '%p:')$debian/root/usr/lib
    for name in rustc rustdoc; do
        wrapper "$name" "LD_LIBRARY_PATH='$libraries' exec '$debian/root/usr/bin/$name' --sysroot '$debian/root/usr' \"\$@\""
    done
}

# Rust asks for libraries by the names of a C compiler's installation: each leads to the toolchain's own file, or to
# an empty archive where the C library has had its contents for long.
write_link_names() {
    local names=$debian/link name
    mkdir -p "$names"
    echo "GROUP ( $tools/lib/libc.so.6 $tools/lib/libc_nonshared.a AS_NEEDED ( $tools/lib/ld-linux-x86-64.so.2 ) )" \
        >"$names/libc.so"
    ln -sf "$tools/lib/libm.so.6" "$names/libm.so"
    ln -sf "$tools/lib/libgcc_s.so.1" "$names/libgcc_s.so"
    ln -sf "$tools/lib/libgcc.a" "$names/libgcc.a"
    for name in util rt pthread dl; do
        printf '!<arch>\n' >"$names/lib$name.a"
    done
}

# Rust's start asks where its stack lies, for which the C library opens a file that the emulator dies of. This answer,
# "not there" (38), is taken well.
write_no_stack_bounds() {
    cat >"$debian/no_stack_bounds.rs" <<'END'
#![no_std]
#[no_mangle]
pub extern "C" fn pthread_getattr_np(_thread: usize, _attributes: *mut u8) -> i32 {
    38
}
END
    "$debian/bin/rustc" --edition 2021 --target "$triple" --crate-type lib --crate-name no_stack_bounds --emit obj \
        -O -C panic=abort -o "$debian/no_stack_bounds.o" "$debian/no_stack_bounds.rs" ||
        fail "Debian's compiler does not work on this machine"
}

# By its name the compiler knows which words the linker takes. Some versions of it begin with a -flavor.
write_linker() {
    local lib=$tools/lib
    wrapper ld.lld "[ \"\$1\" = -flavor ] && shift 2
exec '$tools/bin/ld.lld' --dynamic-linker '$lib/ld-linux-x86-64.so.2' -L '$debian/link' \\
    '$lib/Scrt1.o' '$lib/crti.o' '$lib/crtbeginS.o' \"\$@\" '$debian/no_stack_bounds.o' '$lib/crtendS.o' '$lib/crtn.o'"
}

write_runner() {
    local under=
    [ -z "$emulator" ] || under="'$emulator'"
    wrapper run-x86-64 "exec $under '$tools/lib/ld-linux-x86-64.so.2' --library-path '$tools/lib' \"\$@\""
}

set_up_emulated() {
    find_toolchain
    say "building for x86-64 with Debian's compiler, running under ${emulator:-the loader of the toolchain}"
    unpack_compiler
    mkdir -p "$debian/bin"
    write_compiler
    write_link_names
    write_no_stack_bounds
    write_linker
    write_runner
    export PATH=$debian/bin:$PATH
    export RUSTC=$debian/bin/rustc RUSTDOC=$debian/bin/rustdoc
    export CARGO_TARGET_X86_64_UNKNOWN_LINUX_GNU_LINKER=$debian/bin/ld.lld
    # Taken from the PATH: cargo would cut a path at its spaces.
    export CARGO_TARGET_X86_64_UNKNOWN_LINUX_GNU_RUNNER=run-x86-64
    export RUST_BACKTRACE=0
    unset RUSTFLAGS CARGO_ENCODED_RUSTFLAGS
    say "$("$RUSTC" --version)"
}
