# `try`, a box to play with: settings are kept from call to call, refusals have their number, what is missing is told.
rm -rf "$out/try"

# plays STATUS OUTPUT WORDS..: `try` with these words ends so and writes this to both its outputs; $with is set for it.
with=
plays() {
    status=$1
    output=$2
    shift 2
    found=$(env -u ETHNL_BOX ETHNL_TRY="$out/try" ETHNL_LIB="$lib" ETHTOOL="$ethtool" $with "$here/try" "$@" 2>&1)
    found_status=$?
    check "try $*${with:+ with ${with%%=*}}" "$found
status $found_status" "$output
status $status"
}

plays 0 "" --set-priv-flags quay3 lldp on
plays 0 "Private flags for quay3:
lldp       : on
vlan-filter: on" --show-priv-flags quay3
plays 0 "Private flags for quay4:
vlan-filter: on" --show-priv-flags quay4
plays 75 "netlink error: Operation not supported
try: refused by the library, number 20 (README.md, \"How to read an answer\")" -s quay3 msglvl 0x100
plays 1 "netlink error: No such device
try: refused by the library, number 16 (README.md, \"How to read an answer\")" --show-priv-flags quay9
plays 75 "netlink error: No such device
No data available
try: refused by the library, number 7 16 (README.md, \"How to read an answer\")" quay9
plays 71 "Cannot get driver information: Operation not supported
try: ethtool asks no box for this, but the cards of the machine it runs on; held back" -i quay3
plays 0 "Private flags for quay3:
lldp       : on
vlan-filter: on" --show-priv-flags quay3
plays 0 "" --new
plays 0 "Private flags for quay3:
vlan-filter: on" --show-priv-flags quay3

# Another box starts with settings of its own.
plays 0 "" --set-priv-flags quay3 isolate on
sed 's/ quay3 / kai3 /' "$root/examples/quay.box" >"$out/other.box"
with="ETHNL_BOX=$out/other.box"
plays 0 "Private flags for kai3:
vlan-filter: on" --show-priv-flags kai3

# Alone it tells how to use it, and what is in the box.
check "try alone shows the ports" "$(ETHNL_BOX=$out/other.box "$here/try" | grep '^ports')" \
    "ports  quay1 quay2 kai3 quay4 quay5 quay6 quay7 quay8"
check "try alone tells how to start over" "$("$here/try" | grep -c -- --new)" 1

with="ETHNL_BOX=$out/none.box"
plays 2 "try: no box file $out/none.box: ETHNL_BOX names it" quay3
with="ETHNL_LIB=$out/none.a"
plays 2 "try: no archive $out/none.a: 'make example' makes it, ETHNL_LIB names another" quay3
with="ETHTOOL=$out/none"
plays 2 "try: no ethtool: install it, or ETHTOOL names it (its package cannot be had from here)" quay3
mkdir -p "$out/few"
for word in sh dirname basename realpath mkdir rm cmp cp; do
    cp --remove-destination "$(command -v $word)" "$out/few/$word"
done
with="PATH=$out/few"
plays 2 "try: no gcc, which builds what stands between ethtool and the library" quay3
