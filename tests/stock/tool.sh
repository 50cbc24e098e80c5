# Finding the tool, running it over the shim, comparing what it shows. Read by `run` and `try`.

stop() {
    echo "$(basename "$0"): $1" >&2
    exit 2
}

need_archive() {
    [ -f "$lib" ] || stop "no archive $lib: 'make example' makes it, ETHNL_LIB names another"
}

# Takes the tool that ETHTOOL names, or the installed one, or Debian's package unpacked beside the other things built here.
find_tool() {
    ethtool=${ETHTOOL:-$(PATH=$PATH:/usr/sbin:/sbin command -v ethtool)}
    [ -z "$ethtool" ] || { [ -x "$ethtool" ]; return; }
    unpacked || { fetch >"$out/package.log" 2>&1; unpacked; }
}

unpacked() {
    ethtool=$(find "$out/package" -path '*/sbin/ethtool' 2>/dev/null)
    LD_LIBRARY_PATH=$(echo "$out"/package/usr/lib/*-linux-gnu)
    export LD_LIBRARY_PATH
    [ -n "$ethtool" ]
}

fetch() (
    cd "$out" && { apt-get download ethtool libmnl0 || { timeout 60 apt-get update && apt-get download ethtool libmnl0; }; } &&
        dpkg -x libmnl0_*.deb package && dpkg -x ethtool_*.deb package && files_for_links package
)

# rt ci refuses links inside a checkout.
files_for_links() {
    find "$1" -type l | while read -r link; do
        cp --remove-destination "$(realpath "$link")" "$link" || rm "$link"
    done
}

build() {
    flags="-O2 -Wall -Wextra -Werror -I$root/include -I$root/examples -I$root/tests/c"
    gcc -std=gnu11 $flags -fPIC -shared -o "$out/shim.so" "$here/shim.c" "$here/wire_end.c" "$here/family.c" \
        "$root/examples/box.c" "$lib" &&
        gcc -std=c11 $flags -o "$out/form" "$here/form.c" "$root/examples/box.c" "$lib"
}

# Begins with the settings of a box file; nothing has been sent.
begin() {
    ETHNL_BOX=$1
    ETHNL_STATE=$out/state
    ETHNL_SENT=$out/sent
    ETHNL_REFUSALS=$out/refusals
    ETHNL_OUTSIDE=$out/outside
    export ETHNL_BOX ETHNL_STATE ETHNL_SENT ETHNL_REFUSALS ETHNL_OUTSIDE
    rm -f "$ETHNL_STATE" "$ETHNL_SENT" "$ETHNL_REFUSALS" "$ETHNL_OUTSIDE"
}

tool() {
    LD_PRELOAD=$out/shim.so timeout 10 "$ethtool" "$@"
}

check() {
    if [ "$2" = "$3" ]; then
        passed=$((passed + 1))
        echo "ok: $1"
    else
        failed=$((failed + 1))
        printf 'FAILED: %s\nexpected:\n%s\nfound:\n%s\n' "$1" "$3" "$2"
    fi
}

# expect STATUS OUTPUT WORDS..: the tool, called with these words, ends so and writes this to both its outputs.
expect() {
    status=$1
    output=$2
    shift 2
    found=$(tool "$@" 2>&1)
    found_status=$?
    check "ethtool $*" "$found
status $found_status" "$output
status $status"
}

# expect_refusal NUMBERS STATUS OUTPUT WORDS..: the same, and the library refuses by these numbers.
expect_refusal() {
    numbers=$1
    shift
    rm -f "$ETHNL_REFUSALS"
    expect "$@"
    check "  refused by $numbers" "$(cat "$ETHNL_REFUSALS" 2>/dev/null | tr '\n' ' ')" "$numbers "
}
