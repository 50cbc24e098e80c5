# What the library does not serve. Commands of ethtool netlink are announced, sent and refused (7), and the tool says so;
# for those that it knows by ioctl or rtnetlink alone it would ask the cards of this machine, and the shim refuses.
begin "$root/examples/quay.box"

# refused STATUS WORDS..: sent to the library alone, and nothing else is tried.
refused() {
    rm -f "$ETHNL_OUTSIDE"
    status=$1
    shift
    expect_refusal 7 "$status" "netlink error: Operation not supported" "$@"
    check "  asks no card of this machine" "$(ls "$ETHNL_OUTSIDE" 2>/dev/null)" ""
}

# held_back HOW STATUS OUTPUT WORDS..: never sent to the library.
held_back() {
    rm -f "$ETHNL_OUTSIDE" "$ETHNL_SENT"
    how=$1
    shift
    expect "$@"
    check "  would ask by $how" "$(sort -u "$ETHNL_OUTSIDE" 2>/dev/null)" "$how"
    check "  sends the library nothing" "$(ls "$ETHNL_SENT" 2>/dev/null)" ""
}

refused 75 -s quay1 wol g
refused 75 -s quay1 sopass 00:11:22:33:44:55
refused 75 -s quay1 speed 100
for words in "duplex full" "lanes 1" "autoneg on" "advertise 1" "master-slave preferred-master" "port tp" "mdix auto" "phyad 1"; do
    refused 75 -s quay1 $words
done
refused 1 -a quay1
refused 76 -A quay1 rx on
refused 1 -c quay1
refused 1 -C quay1 rx-usecs 3
refused 1 -g quay1
refused 81 -G quay1 rx 3
refused 1 -k quay1
refused 1 -T quay1
refused 1 -l quay1
refused 1 -L quay1 rx 1
refused 1 -m quay1
refused 1 --show-eee quay1
refused 76 --set-eee quay1 eee on
refused 1 --show-fec quay1
refused 83 --set-fec quay1 encoding auto
refused 1 --show-tunnels quay1
refused 1 --show-module quay1
refused 83 --set-module quay1 power-mode-policy auto

# -K and -S with --all-groups ask for a name list first: strset.sh.
refused 1 -S quay1 --groups eth-mac

# Levels beside something that is not served: that goes first, is refused, and the levels stay.
refused 75 -s quay1 msglvl 0x3 wol g
refused 75 -s quay1 speed 100 msglvl 0x3
expect 0 "Settings for quay1:
        Current message level: 0x00000007 (7)
                               drv probe link" quay1

# Notifications are not announced.
expect 1 "multicast group 'monitor' not found" --monitor quay1
expect 1 "multicast group 'monitor' not found" --cable-test quay1

# All ports at once, of what is not served: a dump that is refused (7), or nothing at all.
for words in -a -k -l -T --show-fec; do
    refused 1 $words '*'
done

# asks_nobody OUTPUT WORDS..: the tool refuses by itself.
asks_nobody() {
    rm -f "$ETHNL_OUTSIDE" "$ETHNL_SENT"
    expect 1 "$@"
    check "  asks nobody" "$(ls "$ETHNL_OUTSIDE" "$ETHNL_SENT" 2>/dev/null)" ""
}
asks_nobody "subcommand does not support wildcard dump" -K '*' gro on
asks_nobody "ethtool netlink support for subcommand missing, wildcard dump not supported" -i '*'
asks_nobody "ioctl-only request, wildcard dump not supported" -S '*'
held_back rtnetlink 1 "netlink error: Operation not supported" -P '*'

held_back ioctl 71 "Cannot get driver information: Operation not supported" -i quay1
held_back ioctl 72 "Cannot get driver information: Operation not supported" -d quay1
held_back ioctl 74 "Cannot get driver information: Operation not supported" -e quay1
held_back ioctl 74 "Cannot get driver information: Operation not supported" -E quay1 magic 1 offset 1 value 1
held_back ioctl 255 "Cannot restart autonegotiation: Operation not supported" -r quay1
held_back ioctl 255 "Cannot identify NIC: Operation not supported" -p quay1
held_back ioctl 74 "Cannot get strings: Operation not supported" -t quay1
held_back ioctl 96 "Cannot get stats strings information: Operation not supported" -S quay1
held_back ioctl 96 "Cannot get stats strings information: Operation not supported" --phy-statistics quay1
held_back ioctl 1 "Cannot get RX rings: Operation not supported
rxclass: Cannot get RX class rule count: Operation not supported
RX classification rule retrieval failed" -n quay1
held_back ioctl 1 "rmgr: Cannot delete RX class rule: Operation not supported
Cannot delete classification rule" -N quay1 delete 1
held_back ioctl 1 "Cannot get RX ring count: Operation not supported" -x quay1
held_back ioctl 1 "Cannot get RX ring count: Operation not supported" -X quay1 equal 2
held_back ioctl 255 "Flashing failed: Operation not supported" -f quay1 firmware
held_back ioctl 1 "Can not get dump level: Operation not supported" -w quay1
held_back ioctl 1 "Can not set dump level: Operation not supported" -W quay1 1
held_back ioctl 87 "Cannot Get PHY downshift count: Operation not supported" --get-phy-tunable quay1 downshift
held_back ioctl 87 "Cannot Set PHY downshift count: Operation not supported" --set-phy-tunable quay1 downshift on
held_back ioctl 255 "rx-copybreak: Cannot get tunable" --get-tunable quay1 rx-copybreak
held_back ioctl 255 "rx-copybreak: Operation not supported" --set-tunable quay1 rx-copybreak 1
held_back ioctl 1 "Cannot issue ETHTOOL_RESET: Operation not supported
ETHTOOL_RESET 0xffffffff" --reset quay1 all
held_back ioctl 242 "Cannot get number of queues: Operation not supported" -Q quay1 --show-coalesce
held_back rtnetlink 1 "netlink error: Operation not supported" -P quay1

# A port with a name that every machine has: it is the box that answers, or nobody.
sed 's/^port 1 quay1 /port 1 lo /' "$root/examples/quay.box" >"$out/lo.box"
begin "$out/lo.box"
expect 0 "Private flags for lo:
vlan-filter: on" --show-priv-flags lo
refused 1 -k lo
held_back ioctl 71 "Cannot get driver information: Operation not supported" -i lo
held_back rtnetlink 1 "netlink error: Operation not supported" -P lo
