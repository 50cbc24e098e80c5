# The manual page, made from the header: no warning, every function, every number.
installs install DESTDIR="$stage"
page=$stage/usr/local/share/man/man3/ethnl.3
if command -v man >/dev/null && command -v groff >/dev/null; then
    check_same "man shows the page without a warning" "$(man --warnings -l "$page" 2>&1 >"$out/ethnl.txt")" ""
    check_same "man finds it by a function's name" \
        "$(man -M "$stage/usr/local/share/man" ethnl_check_box 2>&1)" "$(man -M "$stage/usr/local/share/man" ethnl 2>&1)"
    check_same "the page has every name of the header" "$(sed -n 's/^#define \(ETHNL_[A-Z_]*\).*/\1/p' "$root/include/ethnl.h" |
        grep -vx 'ETHNL_H\|ETHNL_DOTTED\(_TEXT\)\?' | while read -r name; do grep -qw "$name" "$out/ethnl.txt" || echo "$name"; done)" ""
else
    skip "no man and groff to show the manual page"
fi
