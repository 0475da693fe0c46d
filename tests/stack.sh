# For ../test: the stack that each call takes, by the frames of the static library (tests/stack.awk), and not by one run.

# The most that include/vanplan.h says of a call, in bytes.
most_stack() {
    case $1 in
    vanplan_plan | vanplan_price) echo 43008 ;;
    *) echo 2048 ;;
    esac
}

# One test for each of the seven calls.
stack() {
    local name bytes most found=0
    if ! command -v objdump >/dev/null 2>&1; then
        skipped+=("the stack of each call")
        return
    fi
    while read -r name bytes; do
        most=$(most_stack "$name")
        found=$((found + 1))
        if [[ $bytes =~ ^[0-9]+$ ]] && [ "$bytes" -le "$most" ]; then
            echo "$name: $bytes bytes of stack, at most $most"
            passed=$((passed + 1))
        else
            fail "$name: $bytes bytes of stack, and not at most $most"
        fi
    done < <(objdump -dr --no-show-raw-insn "$archive" | awk -f tests/stack.awk | sort)
    [ "$found" -eq 7 ] || fail "the stack of $found calls was found, and not of 7"
}
