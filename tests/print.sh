# For ../test: the script ./plan, on the program that `rt ci` has just built.

# One test: since this file was written no crate was proved and no program was built.
nothing_built_since() {
    local built
    built=$(find crates target/bin -newer "$1" 2>&1 | head -n 3)
    if [ -z "$built" ]; then
        passed=$((passed + 1))
    else
        fail "built again: ${built//$'\n'/; }"
    fi
}

# On sheet A, as a file, from another folder and on standard input, on its beginning, and on what is no file.
plan_script() {
    local sheet=examples/a.sheet lines
    lines=$(<examples/a.txt)
    touch "$scratch/before"
    plan_every_example
    nothing_built_since "$scratch/before"
    ./plan $sheet >"$scratch/printed.txt"
    same "$scratch/printed.txt" examples/a.txt
    prints "rust/../plan ../$sheet" "$lines" 0 env -C rust ../plan ../$sheet
    prints "./plan <$sheet" "$lines" 0 ./plan <$sheet
    prints "./plan on 45 bytes" "refused 10" 1 ./plan < <(head -c 45 $sheet)
    prints "./plan on torn.sheet, what to do" "plan: refused 13: a body number or offset is wrong, or the sheet does not end with its last body
plan: what to do: the sheet is torn, or something is appended: send it again; if all are refused, correct the program that makes them" 1 \
        complaint ./plan examples/torn.sheet
    prints "./plan on twelve.sheet, what to do" "plan: refused 20: fewer than 2^N times P work cells are lent
plan: what to do: ../vanplan plan ../examples/twelve.sheet plans it, since it has as many cells as a round takes" 1 \
        complaint env -C rust ../plan ../examples/twelve.sheet
    prints "./plan on no file" "" 2 ./plan "$scratch/none.sheet"
    prints "./plan on a folder" "" 2 ./plan "$scratch"
    prints "./plan on two files" "" 2 ./plan $sheet $sheet
}

# On every sheet of examples/: the lines that stand beside it, and the status that goes with them.
plan_every_example() {
    local sheet lines status
    for sheet in examples/*.sheet; do
        lines=$(<"${sheet%.sheet}.txt")
        status=1
        [[ $lines != cost* ]] || status=0
        prints "./plan $sheet" "$lines" $status ./plan "$sheet"
    done
}
