#!/bin/sh
# Installs this release: ./install.sh [PREFIX], /usr/local if none is named. With DESTDIR set, below that folder.
set -eu
here=$(cd "$(dirname "$0")" && pwd)
prefix=${1:-/usr/local}
root=${DESTDIR:-}$prefix
version=$(cat "$here/VERSION")
mkdir -p "$root/lib/pkgconfig" "$root/include" "$root/bin" "$root/share/doc/wayramesh"
install -m 644 "$here/lib/libwayramesh.a" "$root/lib"
install -m 644 "$here"/include/*.h "$root/include"
for program in "$here"/bin/*; do
    install -m 755 "$program" "$root/bin/wayramesh-$(basename "$program")"
done
cp -R "$here/doc/." "$root/share/doc/wayramesh"
install -m 644 "$here/SHEET.txt" "$root/share/doc/wayramesh"
sed -e "s,@PREFIX@,$prefix," -e "s,@VERSION@,$version," "$here/lib/pkgconfig/wayramesh.pc" >"$root/lib/pkgconfig/wayramesh.pc"
echo "wayramesh $version is installed below $root"
