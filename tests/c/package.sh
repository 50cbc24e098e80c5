# The Debian package: of the header's version, and complete enough to build an example with it.
check_same "the changelog has the header's version" "$(sed -n '1s/^ethnl (\(.*\)) .*/\1/p' "$root/debian/changelog")" "$version"
cmp "$root/LICENSE" "$root/debian/copyright"
check "the package's copyright is the licence" $?
if dpkg-checkbuilddeps "$root/debian/control" 2>/dev/null; then
    package=$apart/package
    mkdir -p "$package/ethnl"
    cp -r "$root/debian" "$root/include" "$root/examples" "$root/install.mk" "$root/LICENSE" "$root/crates.txt" \
        "$package/ethnl"
    mkdir "$package/ethnl/crates"
    (cd "$package/ethnl" && ETHNL_LIB=$lib dpkg-buildpackage -b -us -uc) >"$out/package.log" 2>&1
    check "dpkg-buildpackage makes the package" $?
    dpkg-deb -x "$package"/libethnl-dev_*.deb "$package/root" &&
        (cd "$package/root/usr" && gcc $warnings -Iinclude -o "$out/daemon-packaged" share/doc/libethnl-dev/examples/daemon.c \
            share/doc/libethnl-dev/examples/box.c lib/*/libethnl.a && gzip -t share/man/man3/ethnl.3.gz)
    check "what is in it builds the example" $?
    serves daemon-packaged
else
    skip "no dpkg-buildpackage and debhelper to make the package with"
fi
