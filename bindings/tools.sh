# Read by run, rust/test, c/test and compare/make, which set `bindings`, this folder, and `name`, who speaks. It sets what they build and run with.
root=$(dirname "$bindings")
tools=$root/compare/build
logs=$bindings/build
machine=$(uname -m)
mkdir -p "$logs"

skip() {
    echo "$name: skipped: $*"
    exit 3
}

stop() {
    echo "$name: failed: $*"
    exit 1
}

# For programs of x86-64: `cc` builds one, `with` runs it (an emulator, or nothing). Elsewhere they are what compare/setup makes.
machine_tools() {
    with=
    cc=${CC:-cc}
    if [ "$machine" != x86_64 ]; then
        timeout 600 "$root/compare/setup" "$tools" || skip "Debian's packages cannot be had: see compare/build/apt.log"
        with=qemu-x86_64
        cc="x86_64-linux-gnu-gcc -static"
    elif ! command -v "$cc" >/dev/null 2>&1; then
        timeout 600 "$root/compare/packages" gcc libc6-dev >"$logs/apt.log" 2>&1 ||
            skip "no C compiler, and Debian's cannot be had: see bindings/build/apt.log"
        cc=gcc
    fi
}

# The folder of the two archives is TUSWERAM_LIB; where none is given, they are proved and built.
archives() {
    if [ -z "${TUSWERAM_LIB:-}" ]; then
        command -v rt >/dev/null 2>&1 || skip "no command rt, and TUSWERAM_LIB names no folder with libhost.a and libhost_parts.a"
        "$bindings/archives" || stop "there are no archives to link"
        TUSWERAM_LIB=$root/target/staticlib
    fi
    for archive in libhost.a libhost_parts.a; do
        [ -f "$TUSWERAM_LIB/$archive" ] || stop "$TUSWERAM_LIB has no $archive"
    done
    TUSWERAM_LIB=$(cd "$TUSWERAM_LIB" && pwd -P)
    export TUSWERAM_LIB
}
