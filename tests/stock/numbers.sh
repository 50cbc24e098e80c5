# A first name of hexadecimal digits alone is sent as a number without a mask, which means the whole set; the rest of
# the line is dropped. The library can't know better: "fec on" is here the set 0xfec, and every other flag goes off.
cat >"$out/hexadecimal.box" <<'BOX'
family 25
admin 1
debug drv
flag lldp
flag storm-guard
flag fec
flag f3
flag - 1
flag f5
flag f6
flag f7
flag f8
flag f9
flag f10
flag f11
port 1 quay1 flags 0 1
BOX
begin "$out/hexadecimal.box"

expect 0 "" --set-priv-flags quay1 fec on
expect 0 "Private flags for quay1:
fec: on
f3 : on
f5 : on
f6 : on
f7 : on
f8 : on
f9 : on
f10: on
f11: on" --show-priv-flags quay1
check "its normal form masks all twelve flags" "$("$out/form" "$ETHNL_BOX" <"$ETHNL_SENT" | cut -d' ' -f5)" \
    080002000c00000008000400ec0f000008000500ff0f0000

# Behind another name it is a name.
begin "$out/hexadecimal.box"
expect 0 "" --set-priv-flags quay1 lldp off fec on
expect 0 "Private flags for quay1:
storm-guard: on
fec        : on" --show-priv-flags quay1
