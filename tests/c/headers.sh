# Headers and examples in every standard that a C programmer may have chosen; numbers and sentences.

# compiles WHAT COMPILER STANDARD LANGUAGE <source
compiles() {
    "$2" -x "$4" -std="$3" -O2 $warnings -pedantic -I"$root/include" -I"$root/examples" -c -o /dev/null -
    check "$1 as $3" $?
}

every_standard() {
    for standard in c89 c99 c11 c17; do
        compiles "$1" gcc "$standard" c <"$2"
    done
    compiles "$1" g++ c++11 c++ <"$2"
}

for header in ethnl.h ethnl_box.h; do
    echo "#include \"$header\"" >"$out/header.c"
    every_standard "$header alone" "$out/header.c"
done
for source in "$root"/examples/*.c; do
    every_standard "$(basename "$source")" "$source"
done

# The version stands in the header alone; what else has it is compared with this.
build version "$here/version.c"
version=$("$out/version")
check_same "the version's number is made of its text" "$("$out/version" number)" \
    "$(echo "$version" | awk -F. '{ print 10000 * $1 + 100 * $2 + $3 }')"

build sentences "$here/sentences.c" "$lib"
add "a sentence for each number" sentences
if echo '#include <linux/ethtool_netlink.h>' | gcc -E - >/dev/null 2>&1; then
    build kernel "$here/kernel.c"
    add "names in the kernel's headers" kernel
else
    skip "no linux/ethtool_netlink.h to compare numbers with"
fi
