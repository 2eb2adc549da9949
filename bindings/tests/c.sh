# C: programs that are built from the installed library alone, the shared and the static one. bindings/try sources this.

if command -v pkg-config >/dev/null; then
    flags=$(pkg-config --cflags --libs serde_qs)
    static_flags=$(pkg-config --static --cflags --libs serde_qs)
else
    echo '  there is no pkg-config: cc gets its flags by hand'
    flags="-I$prefix/include -L$prefix/lib -lserde_qs"
    static_flags=$flags
fi

# fail_each CALL ANSWER: whichever allocation of the call fails, it has its result, or status 2 without a text.
fail_each() {
    local call=$1 wanted=$2 at found
    for ((at = 1; at <= 200; at++)); do
        found=$(printf '%s\n' "$call" | FAILING_ALLOCATION=$at LD_PRELOAD=$room/failing.so "$room/c_memory" 2>&1 9>"$room/failed")
        if [ "$found" = "$wanted" ] || { [ "$found" = $'2\t0\t' ] && [ -s "$room/failed" ]; }; then
            pass
        else
            fail "C, $call with failing allocation $at: '${found:0:200}'"
        fi
        [ -s "$room/failed" ] || return
    done
    fail "C, $call: no end of its allocations"
}

# compiles TEXT: QS_TEXT and QS_TEXT_OF are compiled with this argument, as C99.
compiles() {
    printf '#include <serde_qs.h>\nint made(const char *s) { char out[8]; qs_answer answer; return s && qs_decode(%s, QS_ROOM(out), &answer); }\n' "$1" >text.c
    cc -std=c99 -pedantic -Wall -Wextra -Werror $flags -fsyntax-only text.c >said 2>&1
}

# A pointer in QS_TEXT would pass eight bytes.
try_texts() {
    runs 'QS_TEXT of a literal' compiles 'QS_TEXT("a=1" "&b")'
    runs 'QS_TEXT_OF a pointer' compiles 'QS_TEXT_OF(s)'
    ! compiles 'QS_TEXT(s)' && pass || fail 'QS_TEXT of a pointer is compiled'
}

try_cpp() {
    command -v c++ >/dev/null || { echo '  there is no c++: the header for C++ is not tried'; return; }
    runs 'C++, cases.cpp' c++ -std=c++17 -Wall -Wextra -Werror cases.cpp $flags -o cpp_cases || return
    try_language C++ ./cpp_cases
}

# A processor with the first x86-64's instructions alone, as virtual machines often show it.
try_old_processor() {
    command -v qemu-x86_64 >/dev/null || { echo '  there is no qemu-x86_64: no old processor is tried'; return; }
    try_language 'C, static, on an old processor' env -u LD_LIBRARY_PATH qemu-x86_64 -cpu qemu64 ./static_cases
}

try_c() {
    local program call wanted
    cp "$tests"/c/* .
    for program in cases memory guarded stack; do
        runs "C, $program.c" cc -std=c11 -pthread -Wall -Wextra -Werror "$program.c" $flags -o "c_$program"
    done
    runs 'C, linked with the static library' cc -static -std=c11 cases.c $static_flags -o static_cases
    try_language C ./c_cases
    try_language 'C, static' env -u LD_LIBRARY_PATH ./static_cases
    try_texts
    try_cpp
    try_old_processor
    runs 'a library in which each allocation can fail' \
        cc -shared -fPIC -O1 -nostdlib -fno-builtin -o failing.so "$root/scripts/support/fail_allocation.c"
    while IFS= read -r call <&3 && IFS= read -r wanted <&4; do
        fail_each "$call" "$wanted"
    done 3<calls 4<wanted
    runs 'C, random calls behind guard pages' ./c_guarded calls "$guarded_seconds"
    runs 'C, the calls and those that nest deepest, on a stack of 192 KiB' ./c_stack 192 calls
}

if command -v cc >/dev/null; then
    try_c
else
    echo '  there is no cc: C is not tried'
fi
