# For ../test: the calls in every mode that a program may have put the processor's floats in, by tests/modes.c.

# Compiles the C of baseline/ as the build of this name, with further flags.
compile_baseline() {
    local name=$1 source
    shift
    for source in light read validate triple_loop plan price; do
        cc -std=c99 -O2 "${warnings[@]}" -DPREFIX="$name" -DTARGET="\"$name\"" "$@" -c "baseline/$source.c" \
            -o "$scratch/baseline/${name}_$source.o" || return
    done
}

# Builds $scratch/modes, with the library and with C that adds 2^60 to each sum and C that does not.
build_modes() {
    mkdir -p "$scratch/baseline"
    compile_baseline with && compile_baseline without -DBIAS=0 &&
        cc -std=c99 -O2 "${warnings[@]}" -I include -I baseline -DBUILDS='BUILD(with) BUILD(without)' tests/modes.c baseline/builds.c \
            "$scratch"/baseline/*.o "$archive" -o "$scratch/modes"
}

# What is noticed of a subject in a mode.
in_mode() {
    "$scratch/modes" "$1" "$2" examples/*.sheet
}

# One test for each mode: C without the 2^60 is seen to fail in it. The program says where, which is nothing new.
fails_without() {
    local due=$1 mode
    shift
    for mode; do
        prints "tests/modes.c: C without 2^60, $mode" "$due" 1 in_mode without "$mode" 2>/dev/null
    done
}

# In each mode one test of the library and one of C that does the same, which both have to pass; and one of C that does not, which shows
# that the test can fail.
modes() {
    local mode flagged zero stopped
    if [ "$(uname -m)" != x86_64 ]; then
        skipped+=("the modes of the processor's floats")
        return
    fi
    if ! build_modes; then
        fail "tests/modes.c does not compile or link"
        return
    fi
    flagged=(nearest down up "to zero" flush)
    zero=("denormals zero" "denormals zero, flush" "unmasked, denormals zero, flush")
    stopped=(unmasked "unmasked, up, flush")
    for mode in "${flagged[@]}" "${zero[@]}" "${stopped[@]}"; do
        prints "tests/modes.c: the library, $mode" same 0 in_mode library "$mode"
        prints "tests/modes.c: C with 2^60, $mode" same 0 in_mode with "$mode"
    done
    fails_without "register changed" "${flagged[@]}"
    fails_without "wrong answers" "${zero[@]}"
    fails_without signal "${stopped[@]}"
}
