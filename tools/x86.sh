# tools/x86.sh: for scripts that build x86-64 programs in C or Rust around the static library, and run them; to be sourced.
# The static library is x86-64 code. On x86-64 such programs are built and run as they are; on Arm they are cross-built with Debian's
# packages and run under the kit's emulator with the kit's own x86-64 loader. Packages that are missing are installed by name, as root.
#
#   x86_setup FOLDER   finds compilers and emulator; what it has to build for itself goes into FOLDER. Then:
#     $x86_cc          the C compiler
#     $x86_run         what stands before a program to run it; nothing on x86-64
#     $x86_cargo       cargo
#     $x86_target      cargo's words for the target; nothing on x86-64
#     $x86_built       where cargo puts programs, below its target folder and before the profile's name

x86_stop() { echo "$1" >&2; exit 1; }

x86_install() {
    [ "$(id -u)" = 0 ] || x86_stop "Packages are missing; install them as root: apt-get install $*"
    { apt-get -qq update && DEBIAN_FRONTEND=noninteractive apt-get -qq -y --no-install-recommends install "$@"; } >/dev/null 2>&1 ||
        x86_stop "apt-get cannot install: $*"
}

# Arm: Debian's compiler with the standard library of the other architecture, where the one at hand cannot build for x86-64.
x86_cross_rust() {
    [ -d "$(rustc --print sysroot 2>/dev/null)/lib/rustlib/x86_64-unknown-linux-gnu" ] && return
    dpkg --add-architecture amd64 && x86_install cargo-web rustc-web libstd-rust-web-dev:amd64
    x86_cargo=/usr/bin/cargo
    export RUSTC=/usr/bin/rustc RUSTDOC=/usr/bin/rustdoc
}

x86_emulated() {
    x86_cc=x86_64-linux-gnu-gcc
    command -v $x86_cc >/dev/null 2>&1 || x86_install gcc-x86-64-linux-gnu libc6-dev-amd64-cross
    x86_kit=${RATTLE_HOME:-$(cd "$(dirname "$(readlink -f "$(command -v rt)")")/.." && pwd -P)}
    x86_chain=$x86_kit/on/$(uname -m)/toolchain
    [ -x "$x86_chain/bin/qemu-x86_64" ] || x86_stop "The kit at $x86_kit has no emulator for this machine."
    x86_run="$x86_chain/bin/qemu-x86_64 $x86_chain/lib/ld-linux-x86-64.so.2 --library-path $x86_chain/lib"
    x86_cross_rust
    x86_target="--target x86_64-unknown-linux-gnu"
    x86_built=x86_64-unknown-linux-gnu/
    # The kit's emulator, QEMU 8.2.2, stops itself when a program opens /proc/self/maps. The C library opens it when Rust's start asks for
    # the main thread's stack; this stand-in answers that it is not known, and Rust goes on without that guard page.
    mkdir -p "$1" && echo 'int pthread_getattr_np(unsigned long t, void *a) { (void)t; (void)a; return 38; }' >"$1/no_maps.c" &&
        $x86_cc -O2 -c "$1/no_maps.c" -o "$1/no_maps.o" || x86_stop "The C compiler $x86_cc does not work."
    export CARGO_TARGET_X86_64_UNKNOWN_LINUX_GNU_LINKER=$x86_cc CARGO_TARGET_X86_64_UNKNOWN_LINUX_GNU_RUNNER="$x86_run"
    export CARGO_TARGET_X86_64_UNKNOWN_LINUX_GNU_RUSTFLAGS="-Clink-arg=$1/no_maps.o" RUSTDOCFLAGS="-Clink-arg=$1/no_maps.o"
}

x86_setup() {
    x86_cc=cc x86_run='' x86_cargo=cargo x86_target='' x86_built=''
    case $(uname -m) in
    x86_64)
        command -v cc >/dev/null 2>&1 || x86_install gcc libc6-dev
        command -v cargo >/dev/null 2>&1 || x86_install cargo-web
        ;;
    aarch64) x86_emulated "$1" ;;
    *) x86_stop "The library is for x86-64, and for Arm under the kit's emulator; this machine is $(uname -m)." ;;
    esac
}
