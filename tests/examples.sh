# For ../test: the examples in C and in Rust, on sheets and plans that are whole, damaged and dear.

warnings=(-Wall -Wextra -Werror -pedantic)

# Builds a C program in this language, c or c++, with every warning an error, as $scratch/NAME.
build() {
    local language=$1 source=$2 name=$3 compiler=(cc -std=c99)
    [ "$language" = c ] || compiler=(c++ -std=c++11)
    if ! "${compiler[@]}" "${warnings[@]}" -I include -x "$language" "$source" -x none "$archive" -o "$scratch/$name"; then
        fail "$source does not compile or link as $language"
        return 1
    fi
}

build_example() {
    build c "examples/$1.c" "$1"
}

# One test of a C example, for the arguments behind line and status and its standard input.
example() {
    local name=$1 line=$2 status=$3
    shift 3
    prints "examples/$name.c${*:+ $*}" "$line" "$status" "$scratch/$name" "$@"
}

# What a command says on standard error and on standard output, without the number that Rust puts behind an error.
said() {
    "$@" 2>&1 | sed 's/ (os error [0-9]*)$//'
    return "${PIPESTATUS[0]}"
}

# The same where standard output takes nothing.
said_to_full() {
    "$@" 2>&1 >/dev/full | sed 's/ (os error [0-9]*)$//'
    return "${PIPESTATUS[0]}"
}

# Runs a command that can write no byte to a file, as on a full disk.
on_full_disk() (
    trap '' XFSZ
    ulimit -f 0
    "$@"
)

# One test: where standard output takes nothing, a program says so and ends with 2. Its name comes first.
fails_to_full() {
    local name=$1
    shift
    prints "$name, standard output full" "standard output: No space left on device" 2 said_to_full "$@"
}

# Runs a program with a file as its standard input and as its output.
onto_itself() {
    "$1" "$2" <"$2"
}

# Runs a program that writes a plan to the file that is named last, where another file has the name that it would first take for the new
# one. That name has the number of the process, which stays with `exec`.
beside_another() {
    local file=${!#} status
    (
        echo mine >"$file.$BASHPID-0.new"
        exec "$@"
    )
    status=$?
    cat "$file".*.new
    rm -f "$file".*.new
    return $status
}

# Whatever is in a folder: each name, what it is and where it leads, and the bytes of each file.
listing() {
    (cd "$1" && find . -printf '%y %P %l\n' && find . -type f -exec cksum {} +) | LC_ALL=C sort | cksum
}

# Tests of a program that writes the plan of sheet A to the file that is named last: it replaces a plan, leaves everything else that is
# there as it is, and where it fails leaves nothing behind. The program's name comes first.
spares() {
    local name=$1 folder=$scratch/spared before file kind pipe
    shift
    rm -rf "$folder"
    mkdir -p "$folder/folder.plan"
    cp examples/eight.sheet "$folder/sheet.plan"
    { cat examples/a.plan; echo; } >"$folder/long.plan"
    cp "$scratch/dear.plan" "$folder/old.plan"
    ln -s old.plan "$folder/link.plan"
    ln -s nowhere "$folder/lost.plan"
    mkfifo "$folder/pipe.plan"
    exec {pipe}<>"$folder/pipe.plan" # so that writing to it does not wait for a reader
    before=$(listing "$folder")
    for file in sheet long link lost folder pipe; do
        case $file in
        link | lost) kind="a symbolic link" ;;
        folder) kind="a folder" ;;
        pipe) kind="a device, pipe or socket" ;;
        *) kind="a file that is no plan" ;;
        esac
        file=$folder/$file.plan
        prints "$name $file" "$file: $kind is there, and is left as it is" 2 said "$@" "$file"
    done
    for file in new old; do
        file=$folder/$file.plan
        prints "$name $file on a full disk" "$file: File too large" 2 said on_full_disk "$@" "$file"
    done
    exec {pipe}>&-
    prints "$name leaves all that is there" "$before" 0 listing "$folder"
    (umask 027 && "$@" "$folder/old.plan" >/dev/null)
    same "$folder/old.plan" examples/a.plan
    prints "$name with umask 027" 640 0 stat -c %a "$folder/old.plan"
}

# The examples on sheet A and its plan, on both damaged (cut short, another cost stated), and on a plan that costs more than it states.
examples() {
    local sheet=examples/a.sheet plan=examples/a.plan
    head -c 45 $sheet >"$scratch/cut.sheet"
    head -c 35 $plan >"$scratch/cut.plan"
    { head -c 28 $plan; printf '\133'; tail -c +30 $plan; } >"$scratch/cost91.plan"
    if build_example make; then
        example make "made 102" 0 "$scratch/made.sheet"
        same "$scratch/made.sheet" $sheet
        example make "made 102" 0 "$scratch/made.sheet"
        make_spares
        make_others
        fails_to_full examples/make.c "$scratch/make" "$scratch/made.sheet"
    fi
    if build_example read; then
        example read "tasks 2 points 3" 0 <$sheet
        example read "refused 10" 1 <"$scratch/cut.sheet"
        fails_to_full examples/read.c "$scratch/read" <$sheet
        fails_to_full "examples/read.c, a refusal" "$scratch/read" <"$scratch/cut.sheet"
    fi
    if build_example write; then
        example write "written 36" 0 "$scratch/new.plan" 0 92 0 1
        same "$scratch/new.plan" $plan
        example write "written 36" 0 "$scratch/dear.plan" 0 92 1 0
        cp $plan "$scratch/none.plan"
        example write "refused 12" 1 "$scratch/none.plan" 0 92
        gone "$scratch/none.plan"
        spares examples/write.c write_plan_of_a
        fails_to_full examples/write.c write_plan_of_a "$scratch/new.plan"
    fi
    if build_example show; then
        example show "start 0 doors 0 1 cost 92" 0 2 <$plan
        example show "refused 30" 1 3 <$plan
        fails_to_full examples/show.c "$scratch/show" 2 <$plan
        fails_to_full "examples/show.c, a refusal" "$scratch/show" 3 <$plan
    fi
    if build_example validate; then
        example validate "cost 92" 0 $sheet $plan
        example validate "refused 10" 1 "$scratch/cut.sheet" $plan
        example validate "refused 30" 1 $sheet "$scratch/cut.plan"
        example validate "refused 34" 1 $sheet "$scratch/cost91.plan"
        example validate "refused 34" 1 $sheet "$scratch/dear.plan"
        fails_to_full examples/validate.c "$scratch/validate" $sheet $plan
        fails_to_full "examples/validate.c, a refusal" "$scratch/validate" $sheet "$scratch/dear.plan"
    fi
    if build_example plan; then
        example plan "cost 92 start 0 doors 0 1" 0 "$scratch/best.plan" <$sheet
        same "$scratch/best.plan" $plan
        example plan "refused 10" 1 "$scratch/best.plan" <"$scratch/cut.sheet"
        gone "$scratch/best.plan"
        plan_spares examples/plan.c "$scratch/plan"
        a_device examples/plan.c "$scratch/plan"
    fi
    if build_example price; then
        example price "cost 92 start 0 by point 92 68 90" 0 <$sheet
        example price "refused 10" 1 <"$scratch/cut.sheet"
        prints "examples/price.c as examples/plan.c" "$(price_every_example plan "$scratch/one.plan")" 0 price_every_example price
        fails_to_full examples/price.c "$scratch/price" <$sheet
        fails_to_full "examples/price.c, a refusal" "$scratch/price" <"$scratch/cut.sheet"
    fi
    bench_words
}

write_plan_of_a() {
    "$scratch/write" "$1" 0 92 0 1
}

# Tests of a program that plans its standard input, in C or in Rust; its name comes first.
plan_spares() {
    local name=$1 program=$2 copy=$scratch/copy.sheet
    spares "$name" plan_of_a "$program"
    cp examples/eight.sheet "$copy"
    prints "$name on its own sheet" "$copy: a file that is no plan is there, and is left as it is" 2 said onto_itself "$program" "$copy"
    same "$copy" examples/eight.sheet
    prints "$name beside another's new file" "cost 92 start 0 doors 0 1
mine" 0 beside_another "$program" "$scratch/mine.plan" <examples/a.sheet
    same "$scratch/mine.plan" examples/a.plan
    fails_to_full "$name" plan_of_a "$program" "$scratch/full.plan"
    same "$scratch/full.plan" examples/a.plan
    fails_to_full "$name, a refusal" "$program" "$scratch/full.plan" <examples/torn.sheet
    gone "$scratch/full.plan"
}

plan_of_a() {
    "$1" "$2" <examples/a.sheet
}

# One test of a program that writes a plan: it leaves a device as it is. /dev/null could be lost where this user may remove it; nobody
# may remove the other.
a_device() {
    local device=/dev/null
    [ ! -w /dev ] || device=/dev/pts/ptmx
    if [ ! -c $device ]; then
        skipped+=("$1 on a device")
        return
    fi
    prints "$1 $device" "$device: a device, pipe or socket is there, and is left as it is" 2 said plan_of_a "$2" $device
}

# The maker of a sheet overwrites nothing, a plan neither, and leaves nothing behind.
make_spares() {
    local folder=$scratch/kept before file
    mkdir -p "$folder"
    cp examples/eight.sheet examples/a.plan "$folder"
    : >"$folder/empty"
    ln -s eight.sheet "$folder/link"
    before=$(listing "$folder")
    for file in eight.sheet a.plan empty; do
        prints "examples/make.c $file" "$folder/$file: another file is there, and is left as it is" 2 said "$scratch/make" "$folder/$file"
    done
    prints "examples/make.c link" "$folder/link: a symbolic link is there, and is left as it is" 2 said "$scratch/make" "$folder/link"
    prints "examples/make.c on a full disk" "$folder/new: File too large" 2 said on_full_disk "$scratch/make" "$folder/new"
    prints "examples/make.c leaves all that is there" "$before" 0 listing "$folder"
}

# Builds the maker of a sheet with other tables, by this edit of its source.
make_with() {
    sed "$1" examples/make.c >"$scratch/other.c"
    cp examples/output.h "$scratch"
    build c "$scratch/other.c" other
}

# Other rounds, and numbers that do not fit their bytes.
make_others() {
    local told
    if make_with 's/pairs\[\]\[2\] = {/&{1, 0}, /'; then
        prints "examples/make.c with a pair" "made 106" 0 "$scratch/other" "$scratch/pair.sheet"
        same "$scratch/pair.sheet" examples/a-pair.sheet
    fi
    if make_with 's/rules\[\]\[4\] = {/&{0, 2, 1, 50}, /'; then
        prints "examples/make.c with a rule" "made 112" 0 "$scratch/other" "$scratch/rule.sheet"
        same "$scratch/rule.sheet" examples/a-charge-50.sheet
    fi
    told="distance from point 1 to point 2: 70000 is not from 0 to 65535"
    ! make_with 's/{2, 0, 4}/{2, 0, 70000}/' || prints "examples/make.c, 70,000" "$told" 2 said "$scratch/other" "$scratch/wide.sheet"
    told="load change of task 1: -32769 is not from -32768 to 32767"
    ! make_with 's/{5, -3}/{5, -32769}/' || prints "examples/make.c, -32,769" "$told" 2 said "$scratch/other" "$scratch/wide.sheet"
    gone "$scratch/wide.sheet"
}

# ./bench ends at once for words that it does not know, and where it is asked how it is used.
bench_words() {
    local words
    for words in x 0 1234567 "1 2"; do
        prints "./bench $words" "usage: ./bench [ROUNDS]" 2 first_line said timeout 10 ./bench $words
    done
    for words in --help -h; do
        prints "./bench $words" "usage: ./bench [ROUNDS]" 0 first_line timeout 10 ./bench $words
    done
}

first_line() {
    "$@" >"$scratch/said"
    local status=$?
    head -n 1 "$scratch/said"
    return $status
}

# What a C example, behind which its arguments stand, prints for each sheet of the folder: cost and start, or the refusal.
price_every_example() {
    local name=$1 sheet
    shift
    for sheet in examples/*.sheet; do
        echo "$sheet: $("$scratch/$name" "$@" <"$sheet" | cut -d ' ' -f 1-4)"
    done
}

# Runs a Rust example, as `cargo test` has built it.
run_rust_example() {
    cargo run --quiet --profile test --offline --manifest-path rust/Cargo.toml --example "$@"
}

# The program of a Rust example, as `cargo test` has built it.
rust_program() {
    cargo build --quiet --profile test --offline --manifest-path rust/Cargo.toml --example "$1" \
        --message-format json-render-diagnostics | sed -n 's/.*"executable":"\([^"]*\)".*/\1/p'
}

# One test of a Rust example, as of one in C.
rust_example() {
    local name=$1 line=$2 status=$3
    shift 3
    prints "rust/examples/$name.rs${*:+ $*}" "$line" "$status" run_rust_example "$name" -- "$@"
}

# On sheet A and its plan, on its beginning, on a plan that costs more than it states, and on the whole folder.
rust_examples() {
    local sheet=examples/a.sheet plan=examples/a.plan
    rust_example plan "cost 92 start 0 doors 0 1" 0 "$scratch/best_too.plan" <$sheet
    same "$scratch/best_too.plan" $plan
    rust_example plan "refused 10: the sheet has fewer than 46 bytes" 1 "$scratch/best_too.plan" <"$scratch/cut.sheet"
    gone "$scratch/best_too.plan"
    rust_example validate "cost 92, cheapest 92" 0 $sheet $plan
    rust_example validate "a solution, but not at the cost that it states" 1 $sheet "$scratch/dear.plan"
    rust_files
    rust_fleet
    rust_fleet_files
}

# The examples on files that are there and are not, and with a standard output that takes nothing.
rust_files() {
    local sheet=examples/a.sheet plan=examples/a.plan none=examples/none.sheet planning validating
    planning=$(rust_program plan)
    validating=$(rust_program validate)
    plan_spares rust/examples/plan.rs "$planning"
    prints "rust/examples/plan.rs, a name that is no UTF-8" "cost 92 start 0 doors 0 1" 0 plan_of_a "$planning" "$scratch/"$'\377.plan'
    same "$scratch/"$'\377.plan' $plan
    prints "rust/examples/plan.rs, no end" "refused 11: the sheet's kind is not 1" 1 \
        in_little_memory "$planning" "$scratch/zero.plan" </dev/zero
    prints "rust/examples/plan.rs, a folder as the sheet" "standard input: Is a directory" 2 said "$planning" "$scratch/none.plan" <examples
    prints "rust/examples/plan.rs without words" "usage: plan PLAN < SHEET" 2 said "$planning"
    prints "rust/examples/validate.rs, no sheet" "$none: No such file or directory" 2 said "$validating" $none $plan
    prints "rust/examples/validate.rs, no plan" "$none: No such file or directory" 2 said "$validating" $sheet $none
    prints "rust/examples/validate.rs, no end" "refused 30: the bytes are no plan of as many tasks as the sheet has" 1 \
        in_little_memory "$validating" $sheet /dev/zero
    fails_to_full rust/examples/validate.rs "$validating" $sheet $plan
    fails_to_full "rust/examples/validate.rs, a refusal" "$validating" $sheet "$scratch/dear.plan"
}

# Runs a program with less memory than it would take to read without end.
in_little_memory() (
    ulimit -v 1000000
    timeout 20 "$@"
)

# The lines of that example, in the order of the sheets and with the numbers of refusals alone.
fleet_lines() {
    run_rust_example fleet -- examples "$scratch/plans" >"$scratch/fleet.lines"
    local status=$?
    sed -E 's/(refused [0-9]+):.*/\1/' "$scratch/fleet.lines" | LC_ALL=C sort
    return $status
}

# The example that plans a folder finds what the one in C finds for each of its sheets; some are refused.
rust_fleet() {
    local sheet due
    due=$(for sheet in examples/*.sheet; do
        echo "$sheet: $("$scratch/plan" "$scratch/one.plan" <"$sheet")"
    done | LC_ALL=C sort)
    mkdir -p "$scratch/plans"
    touch "$scratch/plans/torn.plan"
    prints "rust/examples/fleet.rs examples" "$due" 1 fleet_lines
    same "$scratch/plans/a.plan" examples/a.plan
    gone "$scratch/plans/torn.plan"
}

# That example on files that are there and are not, and with a standard output that takes nothing.
rust_fleet_files() {
    local some=$scratch/some none=$scratch/nowhere
    fleet=$(rust_program fleet)
    spares rust/examples/fleet.rs fleet_of_a
    fails_to_full rust/examples/fleet.rs "$fleet" examples "$scratch/plans_too"
    same "$scratch/plans_too/a.plan" examples/a.plan
    prints "rust/examples/fleet.rs, no folder" "$none: No such file or directory" 2 said "$fleet" "$none" "$scratch/plans"
    # What cannot be read outweighs what is refused, and an old plan stays.
    mkdir -p "$some"
    cp examples/torn.sheet "$some"
    ln -s nowhere "$some/lost.sheet"
    cp examples/a.plan "$some/lost.plan"
    prints "rust/examples/fleet.rs, no file" "$some/lost.sheet: No such file or directory
$some/torn.sheet: refused 13" 2 in_order said "$fleet" "$some" "$some"
    same "$some/lost.plan" examples/a.plan
    rust_fleet_into_head
}

# The program's lines in the order of the sheets, with the numbers of refusals alone.
in_order() {
    "$@" >"$scratch/lines"
    local status=$?
    sed -E 's/(refused [0-9]+):.*/\1/' "$scratch/lines" | LC_ALL=C sort
    return $status
}

# Plans sheet A, under the name of this plan.
fleet_of_a() {
    local sheets=$scratch/sheets_of_a name=${1##*/}
    rm -rf "$sheets"
    mkdir -p "$sheets"
    ln -s "$PWD/examples/a.sheet" "$sheets/${name%.plan}.sheet"
    "$fleet" "$sheets" "${1%/*}"
}

# The lines of so many sheets with such long names are more than a pipe holds: all are planned, although only one is read.
rust_fleet_into_head() {
    local many=$scratch/many names=() i due
    mkdir -p "$many"
    for i in {1..400}; do
        printf -v "names[i]" '%s/%0240d.sheet' "$many" "$i"
    done
    tee "${names[@]}" <examples/a.sheet >/dev/null
    due="1
standard output: Broken pipe"
    prints "rust/examples/fleet.rs .. | head -n 1" "$due" 2 fleet_into_head "$many"
    due=$(cksum <examples/a.plan)
    prints "rust/examples/fleet.rs .. | head -n 1, the plans" "400 ${due% *}" 0 plans_in "$many"
}

# How many lines come through, and what is told.
fleet_into_head() {
    "$fleet" "$1" "$1" 2>"$scratch/said" | head -n 1 | grep -c 'cost 92'
    local status=${PIPESTATUS[0]}
    sed 's/ (os error [0-9]*)$//' "$scratch/said"
    return "$status"
}

# How many plans there are in a folder, by checksum; every file but the sheets counts.
plans_in() {
    find "$1" -type f ! -name '*.sheet' -exec cksum {} + | cut -d ' ' -f 1 | sort | uniq -c | sed 's/^ *//'
}
