# All ports at once: '*' in the place of a port. The tool asks for a dump, with an ACK and a header that names no port,
# and reads up to DONE.
. "$here/by_hand.sh"

# A box whose roll has the ports of quay.box in another order.
{ grep -v '^port ' "$root/examples/quay.box"; grep '^port ' "$root/examples/quay.box" | sort -k2,2 -n -r; } >"$out/falling.box"
begin "$out/falling.box"
roll="quay8 quay7 quay6 quay5 quay4 quay3 quay2 quay1"
tool --set-priv-flags quay3 lldp on isolate on
tool --set-priv-flags quay6 vlan-filter off
tool -s quay2 msglvl 0x1

# each WORDS..: what the tool, called with these words and one port after the other, shows of them.
each() {
    for port in $roll; do
        tool "$@" $port
    done
}

rm -f "$ETHNL_SENT"
expect 0 "
Private flags for quay8:
vlan-filter: on

Private flags for quay7:
vlan-filter: on

Private flags for quay6:

Private flags for quay5:
vlan-filter: on

Private flags for quay4:
vlan-filter: on

Private flags for quay3:
lldp       : on
vlan-filter: on
isolate    : on

Private flags for quay2:
vlan-filter: on

Private flags for quay1:
vlan-filter: on" --show-priv-flags '*'
check "  asked for by one dump, with an ACK, of no port" \
    "$("$out/frames" unpack <"$ETHNL_SENT" | cut -d' ' -f1-8,17-)" "18 00 00 00 19 00 05 03 0d 01 00 00 04 00 01 80"
check "  as each port by itself" "$(tool --show-priv-flags '*' | sed '/^$/d')" "$(each --show-priv-flags)"

# `ethtool '*'` is five dumps, of which the levels are served; the other four are refused in silence (7).
levels=$(each)
rm -f "$ETHNL_SENT"
expect_refusal "7 7 7 7" 0 "$levels" '*'
check "  asked for by five dumps of no port" "$("$out/frames" unpack <"$ETHNL_SENT" | cut -d' ' -f5-8,17-)" \
    "$(printf '19 00 05 03 %s 01 00 00 04 00 01 80\n' 04 02 09 07 06)"
check "  has the levels of each port" "$(tool '*' | grep -c 'level: 0x00000007')$(tool '*' | grep -c 'level: 0x00000001')" 71
check "  all of them in roll order" "$(tool '*' | sed -n 's/Settings for \(.*\):/\1/p' | paste -sd' ' -)" "$roll"

# A dump is asked for only where it is announced, `ethtool '*'` only where all five are.
for command in 13:--show-priv-flags 2: 4: 6: 7: 9:; do
    ETHNL_NO_DUMP=${command%:*}
    export ETHNL_NO_DUMP
    rm -f "$ETHNL_SENT"
    expect 1 "subcommand does not support wildcard dump" ${command#*:} '*'
    check "  the dump of $ETHNL_NO_DUMP is not announced: nothing is sent" "$(ls "$ETHNL_SENT" 2>/dev/null)" ""
done
unset ETHNL_NO_DUMP

# No change can be asked for of all ports: the tool refuses by itself, and the library by 8.
cp "$ETHNL_STATE" "$out/before"
expect 1 "subcommand does not support wildcard dump" --set-priv-flags '*' lldp on
expect 1 "subcommand does not support wildcard dump" -s '*' msglvl 0

# Requests made by hand keep the flags of the tool's, both DUMP bits among them.
echo "in the tool's place: a dump that names a port, then a SET"
in_place "$(message 13 "$(nest 1 "$(named quay1)")")"
expect_refusal 8 1 "netlink error: Operation not supported" --show-priv-flags '*'
in_place "$(message 14 "$(nest 1 "$(named quay1)")$(nest 2 "$(compact 1 1)")")"
expect_refusal 8 1 "netlink error: Operation not supported" --show-priv-flags '*'
unset ETHNL_INSTEAD
check "no setting has changed" "$(cmp "$ETHNL_STATE" "$out/before" 2>&1)" ""

# Two tools at once on one box. The dump of the first is held before each place; when four ports are told, the second
# sends its changes, of a port that was told and of one that is to come.
begin "$root/examples/quay.box"
rm -f "$out/hold"
mkfifo "$out/hold"
ETHNL_HOLD=$out/hold
export ETHNL_HOLD
tool --show-priv-flags '*' >"$out/told" 2>&1 &
first=$!
for place in 1 2 3 4 5 6 7 8; do
    check "the first tool's dump is held before place $place" "$(timeout 10 head -n 1 "$ETHNL_HOLD")" $place
    if [ $place -eq 4 ]; then
        expect 0 "" --set-priv-flags quay2 isolate on
        expect 0 "" --set-priv-flags quay7 vlan-filter off storm-guard on
        expect 0 "Private flags for quay2:
vlan-filter: on
isolate    : on" --show-priv-flags quay2
    fi
    timeout 10 sh -c 'echo go on >"$ETHNL_HOLD"'
done
wait $first
check "the first tool ends well" $? 0
unset ETHNL_HOLD

# flags_of PORT LINES: what the tool shows of a port in a dump.
flags_of() {
    printf '\nPrivate flags for %s:\n%s\n' "$1" "$2"
}
check "it has shown the old flags of quay2, which was told, and the new ones of quay7" "$(cat "$out/told")" \
    "$(for port in 1 2 3 4 5 6; do flags_of quay$port "vlan-filter: on"; done
       flags_of quay7 "storm-guard: on"; flags_of quay8 "vlan-filter: on")"
check "asked again, it shows both" "$(tool --show-priv-flags '*')" \
    "$(flags_of quay1 "vlan-filter: on"; flags_of quay2 "vlan-filter: on
isolate    : on"; for port in 3 4 5 6; do flags_of quay$port "vlan-filter: on"; done
       flags_of quay7 "storm-guard: on"; flags_of quay8 "vlan-filter: on")"

# The largest box: 64 ports, 512 flags that are all on.
awk 'BEGIN {
    print "family 25\nadmin 1\ndebug drv"
    for (flag = 0; flag < 512; flag++) { printf "flag the-name-of-the-private-flag%03d\n", flag; on = on " " flag }
    for (port = 64; port > 0; port--) print "port " port " kai" port " flags" on
}' >"$out/largest.box"
begin "$out/largest.box"
tool --show-priv-flags '*' >"$out/told" 2>&1
check "64 ports with 512 flags: the tool ends well" $? 0
check "  every port has 512 lines, in roll order" "$(awk '/^Private flags for/ { port = $4; next } / on$/ { lines[port]++; if (lines[port] == 512) print port }' "$out/told")" \
    "$(awk '$1 == "port" { print $3 ":" }' "$out/largest.box")"
