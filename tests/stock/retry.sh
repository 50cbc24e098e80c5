# The change that was counted twice. Eight ports are to get their new flags. The reply for quay5 is lost, a second
# laptop sends the request again, as names where the first had sent a bitmap, and quay6 is forgotten: eight requests.
begin "$root/examples/quay.box"
for port in 1 2 3 4; do
    expect 0 "" --set-priv-flags quay$port 0x5/0x7
done
ETHNL_LOSE=1
export ETHNL_LOSE
expect 1 "" --set-priv-flags quay5 0x5/0x7
unset ETHNL_LOSE
expect 0 "" --set-priv-flags quay5 lldp on vlan-filter off storm-guard on
for port in 7 8; do
    expect 0 "" --set-priv-flags quay$port 0x5/0x7
done

"$out/form" "$ETHNL_BOX" <"$ETHNL_SENT" >"$out/forms"
check "eight requests were sent" "$(wc -l <"$out/forms" | tr -d ' ')" 8
check "no two of them have the same bytes" "$(cut -d' ' -f3 "$out/forms" | sort -u | wc -l | tr -d ' ')" 8
check "the two for quay5 have one normal form" "$(grep '^quay5 ' "$out/forms" | cut -d' ' -f5 | sort -u | wc -l | tr -d ' ')" 1
check "all have the normal form of the change" "$(cut -d' ' -f5 "$out/forms" | sort -u)" \
    080002000500000008000400050000000800050007000000
check "ports with that form: all but quay6" "$(cut -d' ' -f1,5 "$out/forms" | sort -u | cut -d' ' -f1 | tr '\n' ' ')" \
    "quay1 quay2 quay3 quay4 quay5 quay7 quay8 "

for port in 1 2 3 4 5 7 8; do
    expect 0 "Private flags for quay$port:
lldp       : on
storm-guard: on" --show-priv-flags quay$port
done
expect 0 "Private flags for quay6:
vlan-filter: on" --show-priv-flags quay6
check "stored words of quay1 to quay8, levels and flags" "$(od -An -v -tu4 -w64 "$ETHNL_STATE" | tr -s ' ')" \
    " 7 5 7 5 7 5 7 5 7 5 7 2 7 5 7 5"
