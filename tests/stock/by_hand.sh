# Requests made by hand, as lines of hexadecimal bytes. Read by the parts that send what the tool does not.
gcc -std=c11 $flags -o "$out/frames" "$root/tests/c/frames.c" || failed=$((failed + 1))

# Numbers as hexadecimal bytes, the lowest first.
u16() {
    printf '%02x%02x' $(($1 & 255)) $(($1 >> 8))
}

u32() {
    u16 $(($1 & 65535))
    u16 $(($1 >> 16))
}

# put TYPE PAYLOAD: an attribute and its padding.
put() {
    u16 $((4 + ${#2} / 2))
    u16 "$1"
    printf %s "$2"
    printf %s 000000 | head -c $((2 * (-(${#2} / 2) & 3)))
}

nest() {
    put $((0x8000 + $1)) "$2"
}

# named NAME: the attribute of a port's or a bit's name.
named() {
    put 2 "$(printf '%s\0' "$1" | od -An -v -tx1 | tr -d ' \n')"
}

# compact VALUE MASK: the contents of a bitset of five flags.
compact() {
    put 2 "$(u32 5)"
    put 4 "$(u32 "$1")"
    put 5 "$(u32 "$2")"
}

# message COMMAND ATTRIBUTES
message() {
    u32 $((20 + ${#2} / 2))
    printf '190001000700000009000000%02x010000%s\n' "$1" "$2"
}

# in_place REQUEST: what takes the place of the tool's requests from now on, up to `unset ETHNL_INSTEAD`.
in_place() {
    echo "$1" | "$out/frames" pack | tail -c +5 >"$out/instead"
    ETHNL_INSTEAD=$out/instead
    export ETHNL_INSTEAD
}

# told SET: the port that `form` tells, and the form or the refusal.
told() {
    echo "$1" | "$out/frames" pack | "$out/form" "$ETHNL_BOX" | cut -d' ' -f1,4-
}
