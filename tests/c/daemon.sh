# The example daemon: its answers to a script of requests, what it tells of refusals and of its input.

# serves PROGRAM
serves() {
    "$out/frames" pack <"$here/daemon/requests.txt" >"$out/requests"
    "$out/$1" "$here/daemon/program.box" <"$out/requests" >"$out/frames-back" 2>"$out/errors"
    check "$1 ends well" $?
    check_same "$1 answers as stated" "$("$out/frames" unpack <"$out/frames-back")" "$(cat "$here/daemon/answers.txt")"
    check_same "$1 tells its refusals" "$(cat "$out/errors")" "$(cat "$here/daemon/errors.txt")"
}

build frames "$here/frames.c"
build daemon "$root/examples/daemon.c" "$root/examples/box.c" "$lib"
sanitized daemon-sanitized "$root/examples/daemon.c" "$root/examples/box.c" "$lib"
serves daemon
serves daemon-sanitized

# The index of each reply's port; DONE, of type 3, has none.
all_ports="18 00 00 00 19 00 01 03 07 00 00 00 09 00 00 00 0d 01 00 00 04 00 01 80"
check_same "daemon tells of all ports at once" "$(echo "$all_ports" | "$out/frames" pack | "$out/daemon" "$root/examples/quay.box" |
    "$out/frames" unpack | awk '{ print $5 == "03" ? "DONE" : $29 }' | tr '\n' ' ')" "01 02 03 04 05 06 07 08 DONE "

printf '\001\200\000\000' | "$out/daemon" "$here/daemon/program.box" 2>&1 | grep -q 'datagram of 32769 bytes'
check "daemon refuses a datagram of 32,769 bytes" $?
printf '\024\000\000\000\024' | "$out/daemon" "$here/daemon/program.box" 2>&1 | grep -q 'inside a datagram'
check "daemon tells where its input ends too early" $?

build same "$root/examples/same.c" "$lib"
"$out/same" >"$out/same.txt"
check "the example's two requests have one normal form" $?
check_same "  which is neither of them" "$(sed -n 's/.*(\(.*\) bytes)/\1/p' "$out/same.txt" | tr '\n' ' ')" "32 24 68 24 "
