# For ../test: the README's programs and commands, as they stand there.

# Prints the README's blocks of this language, one behind the other.
readme_blocks() {
    awk -v fence="\`\`\`$1" '$0 == fence { inside = 1; next } $0 == "```" { inside = 0 } inside' README.md
}

# The program in C, as C99 and, where there is a compiler for it, as C++; and the header's limits, which the compiler computes.
readme_c() {
    local language
    readme_blocks c >"$scratch/round.c"
    cat >>"$scratch/round.c" <<'END'
typedef char most_cells[VANPLAN_MAX_CELLS == VANPLAN_CELLS(12, 64) ? 1 : -1];
typedef char most_in_layer[VANPLAN_MAX_LAYER_CELLS == VANPLAN_LAYER_CELLS(12, 64) ? 1 : -1];
#define NEEDS(tasks, lists) (VANPLAN_LAYER_CELLS(tasks, 3) == 3 * (lists))
typedef char layers[NEEDS(1, 1) && NEEDS(2, 2) && NEEDS(3, 3) && NEEDS(4, 6) && NEEDS(5, 10) && NEEDS(6, 20) && NEEDS(7, 35)
                    && NEEDS(8, 70) && NEEDS(9, 126) && NEEDS(10, 252) && NEEDS(11, 462) && NEEDS(12, 924) ? 1 : -1];
typedef char most_bytes[VANPLAN_MAX_PLAN_BYTES == VANPLAN_PLAN_BYTES(VANPLAN_MAX_PLAN_DOORS) ? 1 : -1];
END
    for language in c c++; do
        if [ $language = c++ ] && ! command -v c++ >/dev/null 2>&1; then
            skipped+=("the header in C++")
        elif build $language "$scratch/round.c" round; then
            prints "README's program in $language" "cost 92 start 0 doors 0 1" 0 "$scratch/round" <examples/a.sheet
            prints "README's program in $language, a torn sheet" "refused 13" 1 "$scratch/round" <examples/torn.sheet
            fails_to_full "README's program in $language" "$scratch/round" <examples/a.sheet
            fails_to_full "README's program in $language, a torn sheet" "$scratch/round" <examples/torn.sheet
        fi
    done
}

# The program in Rust, in a package of its own beside the repository.
readme_rust() {
    local package=$scratch/rounds due
    mkdir -p "$package/src"
    ln -s "$PWD" "$scratch/vanplan"
    readme_blocks toml >"$package/Cargo.toml"
    readme_blocks rust >"$package/src/main.rs"
    due="examples/a.sheet: cost 92 start 0 doors 0 1, 36 bytes
examples/a-cycle.sheet: the pairs lead in a circle
examples/torn.sheet: refused 13: a body number or offset is wrong, or the sheet does not end with its last body"
    prints "README's program in Rust" "$due" 0 \
        cargo run --quiet --offline --manifest-path "$package/Cargo.toml" -- examples/{a,a-cycle,torn}.sheet
}

# Each command of the console blocks prints what stands below it.
readme_console() {
    local line command='' due=''
    while IFS= read -r line; do
        if [[ $line != '$ '* ]]; then
            due+=${due:+$'\n'}$line
            continue
        fi
        if [[ $command == ./vanplan* ]] && [ -z "$(package_python)" ]; then
            command='' # which python_package has named
        fi
        [ -z "$command" ] || prints "README: $command" "$due" 0 printed_by "$command"
        command=${line#'$ '}
        due=''
    done < <(readme_blocks console; echo '$ ')
}

# What a command prints, whatever its status: a refusal is no failure.
printed_by() {
    bash -c "$1" </dev/null
    true
}

# The line that plans a folder, on a copy of the examples; a command above it in the README has built target/plan. There is an old plan for
# a sheet that is refused, and for another one a file that is no plan.
readme_fleet() {
    local line fleet=$scratch/fleet sheet
    line=$(readme_blocks sh | grep -F xargs)
    mkdir -p "$fleet/rounds"
    ln -s "$PWD/target" "$fleet/target"
    cp examples/*.sheet "$fleet/rounds"
    touch "$fleet/rounds/torn.sheet.plan"
    cp examples/a.sheet "$fleet/rounds/a-pair.sheet.plan"
    if (cd "$fleet" && bash -c "$line"); then
        fail "README's folder of rounds: status 0, although sheets are refused"
    else
        passed=$((passed + 1))
    fi
    for sheet in a eight torn twelve; do
        prints "README's folder of rounds: $sheet" "$("$scratch/plan" "$scratch/one.plan" <examples/$sheet.sheet)" 0 \
            cat "$fleet/rounds/$sheet.sheet.txt"
    done
    same "$fleet/rounds/a.sheet.plan" examples/a.plan
    gone "$fleet/rounds/torn.sheet.plan"
    same "$fleet/rounds/a-pair.sheet.plan" examples/a.sheet
}

# One test of each page: what it links to is there, the heading too.
links() {
    local page link file heading
    for page in README.md docs/*.md docs/changes/*.md; do
        while IFS='#' read -r file heading; do
            link=$(dirname "$page")/$file
            [ -n "$file" ] || link=$page
            if [ ! -e "$link" ]; then
                fail "$page links to $file, which is not there"
            elif [ -n "$heading" ] && ! headings "$link" | grep -qxF "$heading"; then
                fail "$page links to a heading $heading, which $link does not have"
            else
                passed=$((passed + 1))
            fi
        done < <(grep -oE '\]\([^)]*\)' "$page" | sed -e 's/^](//' -e 's/)$//' | grep -v '^http')
    done
}

# The headings of a page, as links name them.
headings() {
    sed -n 's/^##* //p' "$1" | tr '[:upper:] ' '[:lower:]-' | tr -cd '[:alnum:]\n_-'
}
