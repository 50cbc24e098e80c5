# The name lists over the wire, asked for by names.c, a client over Debian's libmnl: a library that nobody here wrote.

# Takes the installed libmnl-dev, or the package unpacked beside the other things built here.
find_mnl() {
    has_mnl "" || has_mnl "$out/mnl" || { fetch_mnl >"$out/mnl.log" 2>&1; has_mnl "$out/mnl"; }
}

has_mnl() {
    mnl=$1
    [ -f "$mnl/usr/include/libmnl/libmnl.h" ]
}

fetch_mnl() (
    cd "$out" && { apt-get download libmnl-dev libmnl0 || { timeout 60 apt-get update && apt-get download libmnl-dev libmnl0; }; } &&
        dpkg -x libmnl0_*.deb mnl && dpkg -x libmnl-dev_*.deb mnl &&
        files_for_links mnl
)

build_names() {
    gcc -std=c11 -D_GNU_SOURCE -O2 -Wall -Wextra -Werror -I"$mnl/usr/include" -o "$out/names" "$here/names.c" \
        -L"$(echo "$mnl"/usr/lib/*-linux-gnu)" -lmnl 2>&1
}

# names_told STATUS OUTPUT WORDS..: the client, called with these words, ends so and prints this.
names_told() {
    status=$1
    output=$2
    shift 2
    found=$(LD_PRELOAD=$out/shim.so LD_LIBRARY_PATH=${LD_LIBRARY_PATH:-}:$(echo "$mnl"/usr/lib/*-linux-gnu) timeout 10 "$out/names" "$@")
    found_status=$?
    check "names $*" "$found
status $found_status" "$output
status $status"
}

flag_names="set 2
  count 5
  string 0 'lldp'
  string 1 'vlan-filter'
  string 2 'storm-guard'
  string 3 'isolate'
  string 4 'loop-detect'"
debug_names="set 10
  count 8
  string 0 'drv'
  string 1 'probe'
  string 2 'link'
  string 3 'timer'
  string 4 'ifdown'
  string 5 'ifup'
  string 6 'rx_err'
  string 7 'tx_err'"

if find_mnl; then
    check "names.c compiles without a warning" "$(build_names)" ""
    begin "$root/examples/quay.box"
    names_told 0 "port 1 'quay1'
$flag_names
$debug_names" quay1 2 10
    names_told 0 "port 8 'quay8'
$debug_names
$flag_names" quay8 10 2 10 2
    names_told 0 "$debug_names" - 10
    names_told 0 "$debug_names" -
    names_told 0 "port 2 'quay2'
$flag_names" quay2
    names_told 0 "port 1 'quay1'
set 10
  count 8
set 2
  count 5" -c quay1 10 2
    names_told 1 "refused: Operation not supported" - 2
    names_told 1 "refused: Operation not supported" quay1 11
    names_told 1 "refused: No such device" nobody 2
    check "  refused by 24, 24, 16" "$(tr '\n' ' ' <"$ETHNL_REFUSALS")" "24 24 16 "
else
    skipped=$((skipped + 1))
    echo "skipped: the package libmnl-dev cannot be had"
fi
