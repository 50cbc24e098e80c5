# Box files of the examples: every bad line is told with its number, and a box that breaks a rule with the part at fault.

# told WHAT STATUS TEXT: what the daemon says of the file wrong.box.
told() {
    said=$(cd "$out" && ./daemon-sanitized wrong.box </dev/null 2>&1)
    check_same "box file: $1" "$said
status $?" "$3
status $2"
}

# bad_box FAULT LINES..: a box of these lines, and what is said of it.
bad_box() {
    fault=$1
    shift
    printf '%s\n' "$@" >"$out/wrong.box"
    told "$(echo "$*" | cut -c -60)" 1 "$fault"
}

"$out/daemon-sanitized" "$root/examples/quay.box" </dev/null
check "box file: the example's" $?

# Each line of the table is the fifth of a file whose first four are right.
while IFS='|' read -r line fault; do
    bad_box "wrong.box:5: ${fault# }" 'family 25' 'admin 1' 'debug link' 'flag lldp' "${line% }"
done <"$here/daemon/lines.txt"

bad_box 'wrong.box:3: both lists stand before the first port' 'flag a' 'port 1 quay1' 'flag b'
{ printf 'debug a\nflag b\n' && seq 65 | sed 's|.*|port & quay&|'; } >"$out/wrong.box"
told "65 ports" 1 'wrong.box:67: a box has at most 64 ports'
printf 'admin 1\nflag %5000d\n' 1 >"$out/wrong.box"
told "a line of 5,006 bytes" 1 'wrong.box:2: a line is too long, or has a NUL'
printf 'admin 1\nflag a\000b\n' >"$out/wrong.box"
told "a NUL" 1 'wrong.box:2: a line is too long, or has a NUL'
rm -f "$out/wrong.box"
told "none" 1 'wrong.box: No such file or directory'
mkdir "$out/wrong.box"
told "a directory" 1 'wrong.box: Is a directory'
rmdir "$out/wrong.box"

# What several lines make together is for ethnl_check_box to tell.
bad_box 'daemon: wrong.box: The family is not 16 to 65535.' 'debug a' 'flag b' 'port 1 quay1'
bad_box 'daemon: wrong.box: The roll breaks a rule.
daemon: the fault begins at its port line 1' 'family 25' 'debug a' 'flag b'
bad_box 'daemon: wrong.box: The roll breaks a rule.
daemon: the fault begins at its port line 2' 'family 25' 'debug a' 'flag b' 'port 1 quay1' 'port 1 quay2'
bad_box 'daemon: wrong.box: The list of debug names breaks a rule.
daemon: the fault begins at bit 3 of it' 'family 25' 'debug - 2' 'debug a' 'debug a' 'flag b' 'port 1 quay1'
bad_box 'daemon: wrong.box: The list of flag names breaks a rule.
daemon: the fault begins at bit 1 of it' 'family 25' 'debug a' 'flag b 2' 'port 1 quay1'
