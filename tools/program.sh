# For ../plan and ../test: target/bin/print_plan, the proved program. Is sourced; `build` of build.sh builds it.

name=plan
what=program
product=target/bin/print_plan
# It runs the program too, on nothing.
rt_call=(env -C crates/print_plan rt run)
needs=(rt)

# Copies the program from where `rt` leaves it. It is there whole or not at all.
finish() {
    mkdir -p target/bin &&
        cp crates/print_plan/out/print_plan "$product.new" &&
        mv "$product.new" "$product"
}

. "${BASH_SOURCE[0]%/*}/build.sh"
