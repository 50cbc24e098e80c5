# Name lists that the tool itself asks for (STRSET_GET), and what it makes of them. It asks for the names of a compact reply, but
# not for compact replies: so requests made by hand take the place of its own. And it asks for them before it listens.
. "$here/by_hand.sh"
begin "$root/examples/quay.box"

# sends_names WHAT LINES: the tool has sent these requests for name lists, from the generic header on.
sends_names() {
    check "  $1" "$("$out/frames" unpack <"$ETHNL_SENT" | awk '$17 == "01"' | cut -d' ' -f5-8,17-)" "$2"
    rm -f "$ETHNL_SENT"
}

# What the tool sends for a list by its id: that of a port, or of none.
list_of_port() {
    echo "19 00 05 00 01 01 00 00 10 00 01 80 0a 00 02 00 71 75 61 79 3$1 00 00 00 10 00 02 80 0c 00 01 80 08 00 01 00 02 00 00 00"
}
list_of_none() {
    echo "19 00 05 00 01 01 00 00 04 00 01 80 10 00 02 80 0c 00 01 80 08 00 01 00 $1 00 00 00"
}

# in_place_of COMMAND HEADER: of the tool's requests those of this command, with these attributes in their header and flag 1.
in_place_of() {
    ETHNL_INSTEAD_OF=$1
    export ETHNL_INSTEAD_OF
    in_place "$(message "$1" "$(nest 1 "$2$(put 3 "$(u32 1)")")")"
}

# What is served is shown and set without them: the replies have the names.
tool --set-priv-flags quay1 lldp on isolate on
tool -s quay1 msglvl timer on
tool --show-priv-flags quay1 >/dev/null
tool --show-priv-flags '*' >/dev/null
tool quay1 >/dev/null
sends_names "flags and levels, set and shown: no name list is asked for" ""

echo "in the tool's place: GETs with compact replies"
in_place_of 13 "$(named quay1)"
expect 0 "Private flags for quay1:
lldp       : on
vlan-filter: on
storm-guard: off
isolate    : on
loop-detect: off" --show-priv-flags quay1
sends_names "asks for the names of the private flags, with the port" "$(list_of_port 1)"
in_place_of 7 "$(named quay1)"
expect_refusal "7 7 7 7" 0 "Settings for quay1:
        Current message level: 0x0000000f (15)
                               drv probe link timer" quay1
sends_names "asks for the names of the message classes, without the port" "$(list_of_none 0a)"
in_place_of 13 ""
check "ethtool --show-priv-flags '*' shows each flag of each port" "$(tool --show-priv-flags '*' | grep -c ': o')" 40
sends_names "asks for the names of each port by itself" "$(for port in 1 2 3 4 5 6 7 8; do list_of_port $port; done)"

# Bits without a name, which hide others in the tool's own calls (unnamed.sh), do not where it has the list.
cat >"$out/some.box" <<'BOX'
family 25
admin 1
debug drv
debug -
debug link
flag first
flag - 2
flag last
port 1 quay1 debug 0 1 2 flags 0 1 3
BOX
begin "$out/some.box"
in_place_of 13 "$(named quay1)"
expect 0 "Private flags for quay1:
first: on
     : on
     : off
last : on" --show-priv-flags quay1
in_place_of 7 "$(named quay1)"
expect 0 "Settings for quay1:
        Current message level: 0x00000007 (7)
                               drv  link" quay1
unset ETHNL_INSTEAD ETHNL_INSTEAD_OF
begin "$root/examples/quay.box"

# What is not served: -K asks for the names of features (4), -S for those of the groups of statistics (16), both without a port.
names_refused() {
    id=$1
    shift
    expect_refusal "24 7" "$@"
    sends_names "asks for the list $((0x$id))" "$(list_of_none "$id")"
}
twice="netlink error: Operation not supported
netlink error: Operation not supported"
names_refused 04 92 "$twice" -K quay1 gro on
names_refused 10 1 "$twice" -S quay1 --all-groups
names_refused 10 1 "$twice" -S '*' --all-groups

# notification COMMAND BITS VALUE: a compact one about quay1, with sequence and port id 0.
notification() {
    message "$1" "$(nest 1 "$(put 1 "$(u32 1)")$(named quay1)")$(nest 2 "$(put 1 ""; put 2 "$(u32 "$2")"; put 4 "$(u32 "$3")")")" |
        sed 's/^\(.\{12\}\).\{20\}/\100000000000000000000/' | "$out/frames" pack | tail -c +5
}

# Where the group 'monitor' is announced, --monitor asks for the lists before it listens, by default and not by id. What it
# gets then is a PRIVFLAGS_NTF and a DEBUG_NTF, made by hand; it shows both with the names of the lists, and would wait.
ETHNL_MONITOR=$out/notifications
export ETHNL_MONITOR
{ notification 15 5 12; notification 8 8 5; } >"$ETHNL_MONITOR"
heard="listening...

Private flags for quay1:
lldp       : off
vlan-filter: off
storm-guard: on
isolate    : on
loop-detect: off
Settings for quay1:
        Current message level: 0x00000005 (5)
                               drv link"
expect 1 "$heard" --monitor quay1
sends_names "asks for the message classes, then for the private flags of the port" "19 00 05 00 01 01 00 00 04 00 01 80
19 00 05 00 01 01 00 00 10 00 01 80 0a 00 02 00 71 75 61 79 31 00 00 00"
expect 1 "$heard" --monitor
sends_names "asks for the message classes, and for the flags when they are told" "19 00 05 00 01 01 00 00 04 00 01 80
$(list_of_port 1)"
unset ETHNL_MONITOR
expect 1 "multicast group 'monitor' not found" --monitor
check "  sends nothing where no group is announced" "$(ls "$ETHNL_SENT" 2>/dev/null)" ""
