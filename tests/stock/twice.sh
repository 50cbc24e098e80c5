# Requests that the tool does not send: a bitset, a header or a name that stands twice. Of equal types in a parent the
# last counts, for the library and for `form`: what `form` tells of a request does to a box what the request does.
. "$here/by_hand.sh"
gcc -std=c11 $flags -o "$out/daemon" "$root/examples/daemon.c" "$root/examples/box.c" "$lib" || failed=$((failed + 1))

# replies SET: what a box answers, after this request, to a look at the flags of each port.
replies() {
    { echo "$1"; for port in 1 2 3 4 5 6 7 8; do message 13 "$(nest 1 "$(put 1 "$(u32 $port)")")"; done; } |
        "$out/frames" pack | "$out/daemon" "$ETHNL_BOX" 2>&1 | "$out/frames" unpack
}

# twice WHAT ATTRIBUTES PORT FORM: the port and the form that are told of a PRIVFLAGS_SET; together they do what it does.
twice() {
    request=$(message 14 "$2")
    line=$(told "$request")
    check "$1: port and form" "$line" "$3 form $4"
    check "$1: told as the library does it" "$(replies "$request")" \
        "$(replies "$(message 14 "$(nest 1 "$(named "${line%% *}")")$(nest 2 "${line##* }")")")"
}

begin "$root/examples/quay.box"
header=$(nest 1 "$(named quay1)")
first=$(compact 1 1)
last=$(compact 4 6)
check "the two bitsets do not do the same" "$([ "$(replies "$(message 14 "$header$(nest 2 "$first")")")" = \
    "$(replies "$(message 14 "$header$(nest 2 "$last")")")" ]; echo $?)" 1
twice "two bitsets" "$header$(nest 2 "$first")$(nest 2 "$last")" quay1 "$last"
twice "two headers" "$(nest 1 "$(named quay2)")$header$(nest 2 "$last")" quay1 "$last"
twice "two names" "$(nest 1 "$(named quay2)$(named quay1)")$(nest 2 "$last")" quay1 "$last"
twice "two masks" "$header$(nest 2 "$(put 5 "$(u32 31)")$last")" quay1 "$last"
twice "a header behind the bitset" "$(nest 2 "$first")$(nest 1 "$(named quay2)")$header$(nest 2 "$last")" quay1 "$last"
twice "an index, no name" "$(nest 1 "$(put 1 "$(u32 3)")")$(nest 2 "$last")" quay3 "$last"

# A refused request has no form: here the first bitset would do, and the last is refused (20).
request=$(message 14 "$header$(nest 2 "$first")$(nest 2 "$(put 2 "$(u32 9)")$(put 4 "$(u32 0)")$(put 5 "$(u32 256)")")")
check "the last of two bitsets is refused" "$(told "$request")" "quay1 refusal 20"
