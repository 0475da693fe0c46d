# For ../test: ./vanplan as people run it, and the tests of its package.

# The Python that ./vanplan takes, or nothing.
package_python() {
    local command
    for command in python3 python3.14 python3.13 python3.12 python3.11; do
        if "$command" -c 'import sys; sys.exit(sys.version_info < (3, 11))' 2>/dev/null; then
            echo "$command"
            return
        fi
    done
}

# What a command writes to standard error alone.
complaint() {
    "$@" 2>&1 >/dev/null
}

python_package() {
    local python
    prints "./vanplan without Python 3.11" "vanplan: Python 3.11 or later is needed, and none is on the PATH as no-python" 2 \
        complaint env VANPLAN_PYTHON=no-python ./vanplan plan examples/a.toml
    python=$(package_python)
    if [ -z "$python" ]; then
        skipped+=("./vanplan, the tests of its package and its commands in the README, for lack of Python 3.11")
        return
    fi
    vanplan_script
    vanplan_without_library
    readme_round
    readme_python "$python"
    package_tests "$python"
}

# From another folder, with a package of the same name and a module of Python's in the way, on the library that stands there.
vanplan_script() {
    local elsewhere=$scratch/elsewhere
    mkdir -p "$elsewhere/vanplan"
    touch "$scratch/before" "$elsewhere/vanplan/__init__.py" "$elsewhere/json.py"
    prints "vanplan check, from another folder" "cost 92, as the plan states; every task is done once and every pair kept; no plan is cheaper" 0 \
        env -C "$elsewhere" "$PWD/vanplan" check "$PWD/examples/a.toml" "$PWD/examples/a.plan"
    nothing_built_since "$scratch/before"
    prints "./vanplan on no file" "vanplan: $scratch/none.toml: No such file or directory" 2 complaint ./vanplan plan "$scratch/none.toml"
}

# In a copy without target/, and without rt: words that are wrong are told, and help is given, before anything is to be proved.
vanplan_without_library() {
    local copy=$scratch/copy path
    mkdir -p "$copy"
    cp -r python tools vanplan crates.txt README.md "$copy"
    mkdir "$copy/crates"
    path=$(path_without rt)
    prints "./vanplan --version, nothing built" "vanplan $(sed -n 's/^#define VANPLAN_VERSION "\(.*\)"/\1/p' include/vanplan.h)" 0 \
        env PATH="$path" "$copy/vanplan" --version
    prints "./vanplan plan, nothing built" "vanplan: the following arguments are required: ROUND ('vanplan plan --help' tells more)" 2 \
        complaint env PATH="$path" "$copy/vanplan" plan
    prints "./vanplan plan a.toml, nothing built" \
        "vanplan: the library is not built, and rt, the Rattle toolchain's command, is not on the PATH" 2 \
        complaint env PATH="$path" "$copy/vanplan" plan examples/a.toml
}

# The PATH without the folders that have this command.
path_without() {
    local folder kept=()
    local IFS=:
    for folder in $PATH; do
        [ -x "$folder/$1" ] || kept+=("$folder")
    done
    echo "${kept[*]}"
}

# The README's steps from an empty folder: a round from text, its plan, and the plan checked.
readme_round() {
    local folder=$scratch/own block
    mkdir -p "$folder"
    ln -s "$PWD/vanplan" "$folder/vanplan"
    block=$(readme_blocks sh | sed -n '/^cat >round.toml/,/^\.\/vanplan check/p')
    prints "README's round from text" "$(readme_blocks text)" 0 bash -c "cd '$folder' && $block"
}

# The program in Python, on a text, a sheet and a round that is refused.
readme_python() {
    local due
    readme_blocks python >"$scratch/rounds.py"
    due="examples/a.toml: cost 92 start 0 doors 0 1, 36 bytes, first to point 1
examples/a-pair.sheet: cost 126 start 0 doors 1 0, 36 bytes, first to point 2
examples/a-cycle.toml: refused 17: no order of the tasks keeps every pair
examples/torn.sheet: refused 13: a body number or offset is wrong, or the sheet does not end with its last body"
    prints "README's program in Python" "$due" 0 \
        env PYTHONPATH=python PYTHONPYCACHEPREFIX=target/pycache "$1" "$scratch/rounds.py" examples/a.toml examples/a-pair.sheet \
        examples/a-cycle.toml examples/torn.sheet
}

# The package's own tests, each counted.
package_tests() {
    local status last
    env PYTHONPATH=python PYTHONPYCACHEPREFIX=target/pycache "$1" -P -m tests >"$log" 2>&1
    status=$?
    cat "$log"
    last=$(tail -n 1 "$log")
    if [[ $last =~ ^([0-9]+)\ passed,\ ([0-9]+)\ failed,\ ([0-9]+)\ skipped$ ]]; then
        passed=$((passed + BASH_REMATCH[1]))
        failed=$((failed + BASH_REMATCH[2]))
        while IFS= read -r last; do
            skipped+=("$last")
        done < <(sed -n 's/^skipped: //p' "$log")
    fi
    [ "$status" -eq 0 ] || [ "${BASH_REMATCH[2]-0}" -gt 0 ] || fail "the package's tests ended with status $status"
}
