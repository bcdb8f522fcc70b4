#!/bin/sh
# Makes a binary package for Debian of the files that `make install` put into a folder. `make deb` calls it.
#
#     debian/build.sh FOLDER NAME PACKAGE VERSION OUT
set -eu
folder=$1 name=$2 package=$3 version=$4 out=$5
here=$(dirname "$0")

find "$folder/usr/share/man" -type f -exec gzip --no-name --best {} +
doc=$folder/usr/share/doc/$package
install -m 644 "$here/copyright" "$doc/copyright"
if [ -e "$doc/CHANGELOG.md" ]; then
    mv "$doc/CHANGELOG.md" "$doc/changelog"
    gzip --no-name --best "$doc/changelog"
fi

# The newest version of the C library that the program asks for by name.
libc=$(grep -ao 'GLIBC_[0-9.]*[0-9]' "$folder/usr/bin/$name" | sed 's/^GLIBC_//' | sort -V | tail -n 1)
# Debian has an editor of this name, in a package of this name.
conflicts=
[ "$name" != mg ] || conflicts=mg
kilobytes=$(du -sk --apparent-size "$folder/usr" | cut -f 1)
install -d "$folder/DEBIAN"
sed -e "s/@PACKAGE@/$package/" -e "s/@VERSION@/$version/" -e "s/@KILOBYTES@/$kilobytes/" -e "s/@LIBC@/${libc:-2.36}/" \
    -e "s/@CONFLICTS@/$conflicts/" -e '/^Conflicts: $/d' "$here/control.in" > "$folder/DEBIAN/control"
(cd "$folder" && find usr -type f -exec md5sum {} + | LC_ALL=C sort -k 2) > "$folder/DEBIAN/md5sums"
chmod -R u=rwX,go=rX "$folder"
SOURCE_DATE_EPOCH=$(date -u -d "$(sed -n 's/^\.Dd //p' "$here/../man/mg.1")" +%s)
export SOURCE_DATE_EPOCH
dpkg-deb --root-owner-group -Zxz -z3 --build "$folder" "$out/${package}_${version}_amd64.deb" > /dev/null
