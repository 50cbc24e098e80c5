# Private flags: shown, and changed by names, by numbers, on several ports.
begin "$root/examples/quay.box"

expect 0 "Private flags for quay1:
vlan-filter: on" --show-priv-flags quay1

expect 0 "" --set-priv-flags quay1 lldp on
expect 0 "Private flags for quay1:
lldp       : on
vlan-filter: on" --show-priv-flags quay1

expect 0 "" --set-priv-flags quay1 lldp off storm-guard on isolate on
expect 0 "Private flags for quay1:
vlan-filter: on
storm-guard: on
isolate    : on" --show-priv-flags quay1

# A later word for the same flag wins.
expect 0 "" --set-priv-flags quay1 lldp on lldp off
expect 0 "Private flags for quay1:
vlan-filter: on
storm-guard: on
isolate    : on" --show-priv-flags quay1

expect 0 "" --set-priv-flags quay1 0x11/0x1b
expect 0 "Private flags for quay1:
lldp       : on
storm-guard: on
loop-detect: on" --show-priv-flags quay1

# Without a mask a number is the whole set.
expect 0 "" --set-priv-flags quay1 0x2
expect 0 "Private flags for quay1:
vlan-filter: on" --show-priv-flags quay1

expect 0 "" --set-priv-flags quay8 vlan-filter off
expect 0 "Private flags for quay8:" --show-priv-flags quay8
expect 0 "Private flags for quay7:
vlan-filter: on" --show-priv-flags quay7
