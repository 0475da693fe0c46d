# For ../vanplan and ../test: target/lib/libvanplan.so, linked from the proved archive. Is sourced; `build` of build.sh builds it.

name=vanplan
what=library
product=target/lib/libvanplan.so
rt_call=(tools/archive)
needs=(rt cc)

# Links the archive as a shared library, which is there whole or not at all.
finish() {
    mkdir -p target/lib &&
        cc -shared -o "$product.new" -Wl,--version-script=tools/libvanplan.map -Wl,-z,defs -Wl,-z,now \
            -Wl,--whole-archive target/staticlib/libvanplan.a -Wl,--no-whole-archive &&
        mv "$product.new" "$product"
}

. "${BASH_SOURCE[0]%/*}/build.sh"
