# The compiler for the hand-written code. Sourced. The proved library comes from the kit's
# clang at -O3, so the same one is taken where it can compile here: it has no headers of its
# own, and borrows those of the machine's compiler. Else a clang of the machine, else its cc.

kit_clang() {
    command -v rt >/dev/null 2>&1 || return 1
    guide=$(rt doc) || return 1
    found="$(dirname "$guide")/toolchain/bin/clang"
    [ -x "$found" ] || return 1
    echo "$found"
}

# Whether the compiler of these words compiles a file that includes the headers in use.
compiles() {
    printf '#include <stdint.h>\n#include <string.h>\nint f(void) { return 0; }\n' |
        "$@" -x c -c - -o /dev/null >/dev/null 2>&1
}

triple="$(uname -m)-unknown-linux-gnu"
headers=$(cc -print-file-name=include)
kit_words="--target=$triple --no-default-config -isystem $headers"
if kit=$(kit_clang) && compiles "$kit" $kit_words; then
    compile() { "$kit" $kit_words -O3 -fPIC "$@"; }
    compiler_name="the kit's clang, $("$kit" --version | head -n 1), -O3"
elif compiles clang; then
    compile() { clang -O3 -fPIC "$@"; }
    compiler_name="$(clang --version | head -n 1), -O3"
else
    compile() { cc -O3 -fPIC "$@"; }
    compiler_name="$(cc --version | head -n 1), -O3"
fi
