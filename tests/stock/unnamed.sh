# Bits without a name, and sets of more than 32 bits. The tool wants a NAME with each bit of a reply, and document 01
# gives none to a bit that has none: the tool then shows no flags at all, and only the levels below that bit.
cat >"$out/unnamed.box" <<'BOX'
family 4660
admin 1
debug drv
debug -
debug link
debug - 36
debug fortieth
flag first
flag - 38
flag fortieth
port 2147483647 quay.with-15.by debug 0 2 flags 0 39
BOX
begin "$out/unnamed.box"

expect 0 "Private flags for quay.with-15.by:
first   : on
fortieth: on" --show-priv-flags quay.with-15.by
expect 0 "" --set-priv-flags quay.with-15.by fortieth off
expect 0 "" --set-priv-flags quay.with-15.by 0x8000000000/0x8000000001
expect 0 "Private flags for quay.with-15.by:
fortieth: on" --show-priv-flags quay.with-15.by

expect 0 "" --set-priv-flags quay.with-15.by 0x2/0x2
expect 1 "" --show-priv-flags quay.with-15.by
expect 0 "" --set-priv-flags quay.with-15.by 0/0x2
expect 0 "Private flags for quay.with-15.by:
fortieth: on" --show-priv-flags quay.with-15.by

# The number that the tool shows has 32 bits; names of later bits are shown.
expect 0 "" -s quay.with-15.by msglvl fortieth on
expect 0 "Settings for quay.with-15.by:
        Current message level: 0x00000005 (5)
                               drv link fortieth" quay.with-15.by
expect 0 "" -s quay.with-15.by msglvl 0x7
expect 0 "Settings for quay.with-15.by:
        Current message level: 0x00000001 (1)
                               drv" quay.with-15.by

# Of all ports at once, one that has a set bit without a name is left out; the tool says nothing of it, and ends with 0.
sed 's/^port .*/port 3 kai3 flags 0\nport 2 kai2 flags 0 1\nport 1 kai1 flags 39/' "$out/unnamed.box" >"$out/left_out.box"
begin "$out/left_out.box"
expect 0 "
Private flags for kai3:
first: on

Private flags for kai1:
fortieth: on" --show-priv-flags '*'
