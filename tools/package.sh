#!/usr/bin/env bash
# package.sh [FOLDER]: makes a Debian package of what `./boost install /usr` would install, in FOLDER or here, and prints its path. It wants
# dpkg-deb. The package runs nothing as it is installed or removed: the user boost and the store are made by hand, as the README has it.
set -eu
top=$(CDPATH= cd -- "$(dirname -- "$(readlink -f -- "$0")")/.." && pwd)
folder=${1:-.}
stage=$(mktemp -d)
trap 'rm -rf "$stage"' EXIT
chmod 755 "$stage"

python3 "$top/tools/install.py" stage /usr "$stage"
version=$("$stage/usr/bin/boost" --version | cut -d' ' -f2)
# The newest version of the C library of which the program names something.
libc=$(grep -aoE 'GLIBC_[0-9.]+' "$stage/usr/bin/boost" | sed 's/GLIBC_//' | sort -Vu | tail -n 1)
mkdir "$stage/DEBIAN"
cat >"$stage/DEBIAN/control" <<END
Package: fizgaloms
Version: $version
Architecture: amd64
Maintainer: Fizgaloms maintainers <maintainers@users.noreply.fizgaloms.example>
Installed-Size: $(du -sk "$stage/usr" | cut -f1)
Depends: libc6 (>= $libc)
Recommends: python3 (>= 3.8)
Section: database
Priority: optional
Description: durable job queues, quotas and identifiers
 The program boost keeps a store of named collections, on which up to 64
 transactions run at once, and serves it to programs in any language. With it
 come its client in C, boost-attach, manual pages and a unit for systemd.
END
package=$folder/fizgaloms_${version}_amd64.deb
dpkg-deb --root-owner-group --build "$stage" "$package" >/dev/null
echo "$package"
