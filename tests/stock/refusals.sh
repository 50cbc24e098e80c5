# What the tool shows of refusals; no setting changes by any of them.
begin "$root/examples/quay.box"
tool --set-priv-flags quay1 lldp on
cp "$ETHNL_STATE" "$out/before"

# 21: the tool passes names on as they are.
expect_refusal 21 1 "netlink error: Operation not supported" --set-priv-flags quay1 nonsense on
expect_refusal 21 1 "netlink error: Operation not supported" --set-priv-flags quay1 lldp off nonsense on
expect_refusal 21 75 "netlink error: Operation not supported" -s quay1 msglvl nonsense on

# 20: a bit past the last one, in VALUE and in MASK.
expect_refusal 20 75 "netlink error: Operation not supported" -s quay1 msglvl 0x100
expect_refusal 20 75 "netlink error: Operation not supported" -s quay1 msglvl 0/0x100

# 12: a bit name of 32 bytes.
expect_refusal 12 1 "netlink error: Invalid argument" --set-priv-flags quay1 abcdefghijklmnopqrstuvwxyz-12345 on

# 16: a port that isn't there. `ethtool PORT` asks five times, and four of these are refused in silence (7).
expect_refusal 16 1 "netlink error: No such device" --show-priv-flags quay9
expect_refusal 16 1 "netlink error: No such device" --set-priv-flags quay9 lldp on
expect_refusal 16 75 "netlink error: No such device" -s quay9 msglvl 1
expect_refusal "7 7 7 16 7" 75 "netlink error: No such device
No data available" quay9

# A first name of hexadecimal digits alone is sent as a number without a mask, which means the whole set (20 here).
expect_refusal 20 1 "netlink error: Operation not supported" --set-priv-flags quay1 fec on

check "no setting has changed" "$(cmp "$ETHNL_STATE" "$out/before" 2>&1)" ""

# 9: a sender who isn't admin may look, not change.
sed 's/^admin 1/admin 0/' "$root/examples/quay.box" >"$out/guest.box"
begin "$out/guest.box"
expect_refusal 9 1 "netlink error: Operation not permitted" --set-priv-flags quay1 lldp on
expect_refusal 9 75 "netlink error: Operation not permitted" -s quay1 msglvl 0
expect 0 "Private flags for quay1:
vlan-filter: on" --show-priv-flags quay1
expect 0 "Settings for quay1:
        Current message level: 0x00000007 (7)
                               drv probe link" quay1
