# Buffers of exactly the stated lengths: under the sanitizers, and against pages that can't be touched.
cases=${CASES:-20000}
lent="$here/lend.c"
build exact "$here/exact.c" "$lent" "$lib"
sanitized exact-sanitized "$here/exact.c" "$lent" "$lib"
build faults "$here/faults.c" "$lent" "$lib"
sanitized faults-sanitized "$here/faults.c" "$lent" "$lib"
for program in all_ports all_ports_refused name_lists name_lists_refused name_lists_longest find; do
    build $program "$here/$program.c" "$lent" "$lib"
    sanitized $program-sanitized "$here/$program.c" "$lent" "$lib"
done

# in_each_way WHAT PROGRAM: from the heap, before a guard page, after one.
in_each_way() {
    add "$1, exact heap buffers, AddressSanitizer and UndefinedBehaviorSanitizer" "$2-sanitized" heap <"$out/cases"
    add "$1, each buffer ends at a guard page" "$2" end <"$out/cases"
    add "$1, each buffer begins at a guard page" "$2" start <"$out/cases"
}

# caught PROGRAM WAY PAST_END: a library that reads one byte too far is told.
caught() {
    build too-far "-DPAST_END=$3" "$here/too_far.c" "$here/$1.c" "$lent"
    ! "$out/too-far" "$2" <"$out/cases" >"$out/caught" && grep -q 'case 0 touches' "$out/caught"
    check "$1 tells of a byte outside of a buffer, at its $2" $?
}

(cd "$root/tests" && cargo build --quiet --release --offline -p dump) || exit 2
"$root/tests/target/release/dump" --cases "$cases" --seed 1 >"$out/cases"
in_each_way "$cases cases" exact
in_each_way "boxes at fault" faults
in_each_way "dumps" all_ports
in_each_way "dumps and places that are refused" all_ports_refused
in_each_way "name lists" name_lists
in_each_way "name lists that are refused" name_lists_refused
in_each_way "the longest replies with name lists" name_lists_longest
in_each_way "names that are looked for" find
for program in exact faults find; do
    caught "$program" end 1
    caught "$program" start 0
done
rm -f "$out/cases"
