# Building, shared by run and test. Sourced with $here set to this folder.

target="$here/../target/second"

# Sees to it that there is a rustc, or says clearly that there is none.
need_rustc() {
    command -v rustc >/dev/null 2>&1 && return 0
    if [ "$(id -u)" = 0 ] && command -v apt-get >/dev/null 2>&1; then
        echo "second: rustc is missing; trying apt-get install rustc" >&2
        { apt-get update && DEBIAN_FRONTEND=noninteractive apt-get install -y rustc; } \
            </dev/null >&2 || true
    fi
    command -v rustc >/dev/null 2>&1 && return 0
    echo "second: rustc is missing; on Debian: apt-get install rustc" >&2
    return 1
}

# Whether a built program is there and no source is newer than it.
is_fresh() {
    [ -x "$1" ] && [ -z "$(find "$here/src" "$here/build.sh" -newer "$1")" ]
}

# build NAME ROOT OPTION...: builds src/ROOT as target/second/NAME where needed.
# The program gets its name only once it is whole, so two builds at once do no
# harm, and its time is that of the build's start, so no later edit is missed.
build() {
    name=$1
    root=$2
    shift 2
    is_fresh "$target/$name" && return 0
    need_rustc || return 1
    mkdir -p "$target" || return 1
    work=$(mktemp -d "$target/build.XXXXXX") || return 1
    touch "$work/start"
    if rustc --edition 2021 -C codegen-units=1 "$@" -o "$work/$name" "$here/src/$root" </dev/null >&2 &&
        touch -r "$work/start" "$work/$name" && mv -f "$work/$name" "$target/$name"; then
        rm -rf "$work"
        return 0
    fi
    rm -rf "$work"
    echo "second: the build of $name failed" >&2
    return 1
}
