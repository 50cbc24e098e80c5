# make install and uninstall, and what they install is enough to build the examples from elsewhere.
stage=$out/stage
far=/opt/ethnl-test

unset PREFIX LIBDIR INCLUDEDIR DATADIR MANDIR DOCDIR DESTDIR MAKEFLAGS

# installs WORDS..: make, with the archive under test.
installs() {
    (cd "$root" && make -s -f install.mk ETHNL_LIB="$lib" "$@")
}

# files DIRECTORY: what stands below it.
files() {
    (cd "$1" && find . -type f | sort | tr '\n' ' ')
}

rm -rf "$stage" "$out/prefix"
installs install DESTDIR="$stage"
check "make install into DESTDIR" $?
check_same "  its files" "$(files "$stage/usr/local")" "./include/ethnl.h ./include/ethnl_box.h ./lib/libethnl.a \
./lib/pkgconfig/ethnl.pc ./share/doc/ethnl/LICENSE ./share/doc/ethnl/examples/box.c ./share/doc/ethnl/examples/box.h \
./share/doc/ethnl/examples/daemon.c ./share/doc/ethnl/examples/quay.box ./share/doc/ethnl/examples/same.c \
./share/man/man3/ethnl.3 ./share/man/man3/ethnl_check_box.3 ./share/man/man3/ethnl_find.3 \
./share/man/man3/ethnl_handle.3 ./share/man/man3/ethnl_normalise.3 "
installs uninstall DESTDIR="$stage"
check_same "make uninstall leaves none of them" "$(files "$stage")" ""

directories="PREFIX=$far LIBDIR=$far/lib64 INCLUDEDIR=$far/c DATADIR=$far/data MANDIR=$far/pages DOCDIR=$far/text"
installs install DESTDIR="$stage" $directories
check_same "make install into directories of their own" "$(ls "$stage$far" | tr '\n' ' ')" "c lib64 pages text "
installs uninstall DESTDIR="$stage" $directories
check_same "make uninstall leaves none of them" "$(files "$stage")" ""

# An archive that is missing or older than the crates is built first; a fake rt writes down what it was asked.
tree=$apart/tree
mkdir -p "$tree/bin"
cp -r "$root/include" "$root/examples" "$root/tools" "$root/install.mk" "$root/LICENSE" "$root/crates.txt" "$tree"
for crate in $("$tree/tools/closure"); do
    mkdir -p "$tree/crates/$crate/out"
done
cat >"$tree/bin/rt" <<'END'
#!/bin/sh
crate=$(basename "$PWD")
echo "$* of $crate" >>../../asked
echo archive >"out/lib$crate.a"
END
chmod +x "$tree/bin/rt"
builds() {
    (cd "$tree" && rm -f asked && unset ETHNL_LIB && PATH=$PWD/bin:$PATH make -s -f install.mk install DESTDIR="$stage" >/dev/null &&
        grep 'ethnl_c$' asked 2>/dev/null)
}
check_same "a missing archive is built" "$(builds)" "lib of ethnl_c"
check_same "one that is there is not built again" "$(builds)" ""
touch -d '1 hour ago' "$tree/target/staticlib/libethnl.a"
touch "$tree/crates/changed"
check_same "one that is older than the crates is" "$(builds)" "lib of ethnl_c"

if command -v pkg-config >/dev/null; then
    installs install PREFIX="$out/prefix" LIBDIR="$out/prefix/lib64"
    asked() {
        PKG_CONFIG_PATH=$out/prefix/lib64/pkgconfig pkg-config "$@" ethnl
    }
    check_same "pkg-config tells the version of the header" "$(asked --modversion)" "$version"
    check_same "pkg-config tells the directories" "$(asked --cflags --libs | sed 's/ $//')" \
        "-I$out/prefix/include -L$out/prefix/lib64 -lethnl"
    (cd "$out/prefix/share/doc/ethnl/examples" && gcc $warnings -o "$out/daemon-installed" daemon.c box.c $(asked --cflags --libs))
    check "the installed example builds with the flags of pkg-config" $?
    serves daemon-installed
else
    skip "no pkg-config to ask for flags"
fi
