# The desk's programs, for the scripts that run them. Sourced after build.sh.
# GIR_BATCH names another program to be run, as it stands, in gir_batch's place.

# program_of NAME: where rt leaves the desk's program.
program_of() {
    echo "$top/crates/$1/out/$1"
}

# need_program NAME: sees to it that the desk's program is there. `rt ci` leaves it; else `rt run` proves and links
# it, and then runs it, here on nothing.
need_program() {
    program=$(program_of "$1")
    if [ ! -x "$program" ]; then
        (cd "$top/crates/$1" && rt run) </dev/null >&2 || echo "tests: rt run in crates/$1 failed" >&2
    fi
    if [ ! -x "$program" ]; then
        echo "tests: there is no crates/$1/out/$1" >&2
        return 1
    fi
    if [ -n "$(find "$top/crates" -path "$top/crates/*/out" -prune -o -name '*.rt' -newer "$program" -print)" ]; then
        echo "tests: sources are newer than crates/$1/out/$1; rt run in crates/$1 builds it anew" >&2
    fi
}

# run_program NAME [ARGUMENT..]: runs the desk's program.
run_program() {
    program=$(program_of "$1")
    shift
    "$program" "$@"
}

need_desk() {
    [ -n "${GIR_BATCH:-}" ] || need_program gir_batch
}

run_desk() {
    if [ -n "${GIR_BATCH:-}" ]; then
        "$GIR_BATCH"
        return
    fi
    run_program gir_batch
}

# build_fault FILE: builds src/fault.c as the shared object FILE. The kit's compiler makes it, as it makes the
# programs.
build_fault() {
    fault=$1
    guide=$(rt doc)
    "$(dirname "$guide")/toolchain/bin/clang" --target=x86_64-unknown-linux-gnu --no-default-config -O2 -shared -fPIC \
        -nostdlib -fuse-ld=lld -o "$fault" "$here/src/fault.c" >&2
}

# set_fault HOW NUMBER: what is run from here on meets something at that call of the system, as
# src/fault.c tells; after build_fault, and in a shell of its own.
set_fault() {
    export GIR_HOW="$1" GIR_AT="$2" LD_PRELOAD="$fault"
}

# run_faulty HOW NUMBER NAME [ARGUMENT..]: run_program with something at that call of the system.
run_faulty() {
    (
        set_fault "$1" "$2"
        shift 2
        run_program "$@"
    )
}
