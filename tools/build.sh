# For ../plan and ../vanplan: proves and builds what they run, once, and shows how far it is.
#
# Who sources this has set `name`, its own; `what`, what it needs in words; `product`, the file that is built; `rt_call`, the command that
# proves it; `needs`, the commands that this takes; and has a function `finish`, which makes the product of what that command left. All run
# in the repository's folder.

log=target/$name.log
# What the product was built from, and the product itself, as checksums. It is written once the product is proved, linked
# and tried, so what a broken run left behind is not trusted.
mark=target/$name.built

say() {
    echo "$name: $*" >&2
}

die() {
    say "$@"
    exit 2
}

sum() {
    sha256sum | cut -d ' ' -f 1
}

# All that the proofs and the product are made from; a must-fail edit is no part of it, nor what `rt` keeps in a crate's out/.
sources_sum() {
    find crates.txt crates tools '(' -name must-fail -o -name out ')' -prune -o -type f -exec sha256sum {} + | LC_ALL=C sort | sum
}

product_sum() {
    [ -x "$product" ] && sum <"$product"
}

is_built() {
    local from as
    [ -f "$mark" ] && read -r from as <"$mark" && [ "$as" = "$(product_sum)" ] && [ "$from" = "$(sources_sum)" ]
}

# Keeps what `rt` says in the log, and shows each crate that it proves, and every ten seconds that it is at work.
show_progress() {
    local line='' part crate=''
    while true; do
        if IFS= read -r -t 10 part; then
            line+=$part
            printf '%s\n' "$line"
            if [[ $line =~ ^rt:\ chose\ --jobs\ [0-9]+\ for\ ([A-Za-z0-9_]+)$ ]]; then
                crate=${BASH_REMATCH[1]}
            elif [[ $line == 'logic=proved '* ]]; then
                say "$SECONDS s: $crate proved"
            fi
            line=''
        elif [ $? -gt 128 ]; then
            line+=$part
            say "$SECONDS s: at work"
        else
            return
        fi
    done >"$log"
}

# What a command is for.
role() {
    case $1 in
    rt) echo "the Rattle toolchain's command" ;;
    *) echo "a C compiler" ;;
    esac
}

# Proves and builds what is not proved and built yet. One script does so at a time; the lock ends with the last process of
# the build, also where this one is ended before.
build() {
    local from as status command
    for command in "${needs[@]}"; do
        command -v "$command" >/dev/null 2>&1 || die "the $what is not built, and $command, $(role "$command"), is not on the PATH"
    done
    mkdir -p target || die "target/ cannot be made"
    exec 9>target/build.lock || die "target/ cannot be written"
    flock -n 9 || { say "waiting for another ./plan or ./vanplan, which builds"; flock 9; } || die "target/build.lock cannot be locked"
    if ! is_built; then
        if [ -x "$product" ]; then
            say "asking rt whether the $what is up to date; what is not is proved and built again, which can take a few minutes"
        else
            say "proving the planner and building the $what; this takes a few minutes the first time"
        fi
        SECONDS=0
        from=$(sources_sum)
        rm -f "$mark"
        "${rt_call[@]}" </dev/null 2>&1 | show_progress
        status=${PIPESTATUS[0]}
        if [ "$status" -ne 0 ] || ! finish >>"$log" 2>&1 || ! as=$(product_sum); then
            tail -n 20 "$log" >&2
            die "after $SECONDS s: '${rt_call[*]}' built no $what (status $status); $PWD/$log has all that was said"
        fi
        [ "$(sources_sum)" = "$from" ] || die "after $SECONDS s: the sources were changed meanwhile; run ./$name again"
        echo "$from $as" >"$mark.new" || die "$mark.new cannot be written"
        mv "$mark.new" "$mark" || die "$mark cannot be written"
        say "$SECONDS s: ready"
    fi
    exec 9>&-
}
