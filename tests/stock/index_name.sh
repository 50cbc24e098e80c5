# Index and name of a bit. The tool gives one of the two, so it can't ask for two bits in one BIT (23). What it makes of
# such a refusal is shown by requests made by hand that take the place of its own.
. "$here/by_hand.sh"
begin "$root/examples/quay.box"

# carries WHAT WORDS..: what tells the bit in each BIT that the tool sends; --debug 0x12 shows its messages attribute by attribute.
carries() {
    what=$1
    shift
    check "ethtool $*: each BIT carries $what" "$(tool --debug 0x12 "$@" 2>&1 |
        awk '/_BITS_BIT$/ { bits++ } sub(/^ *ETHTOOL_A_BITSET_BIT_/, "") && !/^VALUE/ { carried[bits] = carried[bits] " " $1 }
             END { for (bit = 1; bit <= bits; bit++) print carried[bit] }' | sort -u)" " $what"
}

carries NAME --set-priv-flags quay1 isolate on vlan-filter off
carries NAME -s quay1 msglvl timer on drv off
carries NAME -s quay1 advertise 10baseT/Half on
carries NAME --set-fec quay1 encoding rs
carries NAME -S quay1 --groups eth-phy eth-mac
carries INDEX -s quay1 wol pg

# instead COMMAND INDEX NAME: what the tool sends from now on is a SET of quay1 by one BIT with both, and VALUE.
instead() {
    bit=$(put 1 "$(u32 "$2")")$(named "$3")$(put 3 "")
    request=$(message "$1" "$(nest 1 "$(named quay1)")$(nest 2 "$(nest 3 "$(nest 1 "$bit")")")")
    in_place "$request"
    echo "in the tool's place: command $1, index $2 with the name $3"
}

begin "$root/examples/quay.box"
instead 14 2 storm-guard
expect 0 "" --set-priv-flags quay1 storm-guard on
check "its normal form is that of the bit" "$(told "$request")" "quay1 form $(compact 4 4)"
instead 8 3 timer
expect 0 "" -s quay1 msglvl timer on
cp "$ETHNL_STATE" "$out/before"

instead 14 2 isolate
expect_refusal 23 1 "netlink error: Invalid argument" --set-priv-flags quay1 isolate on
check "it has no normal form" "$(told "$request")" "quay1 refusal 23"
instead 8 2 timer
expect_refusal 23 75 "netlink error: Invalid argument" -s quay1 msglvl timer on
instead 14 2 nonsense
expect_refusal 21 1 "netlink error: Operation not supported" --set-priv-flags quay1 isolate on
instead 14 5 isolate
expect_refusal 20 1 "netlink error: Operation not supported" --set-priv-flags quay1 isolate on
unset ETHNL_INSTEAD
check "no setting has changed" "$(cmp "$ETHNL_STATE" "$out/before" 2>&1)" ""

expect 0 "Private flags for quay1:
vlan-filter: on
storm-guard: on" --show-priv-flags quay1
expect 0 "Settings for quay1:
        Current message level: 0x0000000f (15)
                               drv probe link timer" quay1
