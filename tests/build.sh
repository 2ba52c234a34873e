# Building and running, shared by the scripts here. Sourced with $here set to this folder.

# The jobs that are recorded and compared: R read, C check, W write.
jobs=RCW

top=$(cd "$here/.." && pwd)
target="$top/target/tests"

# Sees to it that there is a rustc, or says clearly that there is none.
need_rustc() {
    command -v rustc >/dev/null 2>&1 && return 0
    if [ "$(id -u)" = 0 ] && command -v apt-get >/dev/null 2>&1; then
        echo "tests: rustc is missing; trying apt-get install rustc" >&2
        { apt-get update && DEBIAN_FRONTEND=noninteractive apt-get install -y rustc; } \
            </dev/null >&2 || true
    fi
    command -v rustc >/dev/null 2>&1 && return 0
    echo "tests: rustc is missing; on Debian: apt-get install rustc" >&2
    return 1
}

# build NAME: builds src/NAME.rs as target/tests/NAME, unless that is there and no source
# is newer. The program gets its name only once it is whole, so two builds at once do no
# harm, and its time is that of the build's start, so no later edit is missed.
build() {
    if [ -x "$target/$1" ] && [ -z "$(find "$here/src" -newer "$target/$1")" ]; then
        return 0
    fi
    need_rustc && mkdir -p "$target" && work=$(mktemp -d "$target/build.XXXXXX") || return 1
    touch "$work/start"
    if rustc --edition 2021 -O -C codegen-units=1 -o "$work/$1" "$here/src/$1.rs" </dev/null >&2 &&
        touch -r "$work/start" "$work/$1" && mv -f "$work/$1" "$target/$1"; then
        rm -rf "$work"
        return 0
    fi
    rm -rf "$work"
    echo "tests: the build of $1 failed" >&2
    return 1
}

# Makes a temporary folder, $room, that is removed when the script ends.
make_room() {
    room=$(mktemp -d) || return 1
    trap 'rm -rf "$room"' EXIT
    trap 'exit 1' HUP INT TERM
}
