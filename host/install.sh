#!/bin/sh
# install.sh PREFIX: puts the header, the archive, a pkg-config file and the tool under PREFIX. The archive and the
# tool have been built: `make install PREFIX=..` does so first. DESTDIR stands before PREFIX where files are staged.
set -eu
prefix=${1:?a prefix}
case $prefix in
/*) ;;
*) prefix=$PWD/$prefix ;;
esac
cd "$(dirname "$0")/.."
to=${DESTDIR:-}$prefix
header=include/phuyurik.h
number() { sed -n "s/^#define PHUYURIK_VERSION_$1 \([0-9]*\)$/\1/p" $header; }

tool=${CARGO_TARGET_DIR:-host/target}/release/phuyurik
for file in $header target/staticlib/libphuyurik.a "$tool"; do
    [ -f "$file" ] || { echo "there is no $file to install: make install" >&2; exit 1; }
done

mkdir -p "$to/include" "$to/lib/pkgconfig" "$to/bin"
cp $header "$to/include/phuyurik.h"
cp target/staticlib/libphuyurik.a "$to/lib/libphuyurik.a"
cp "$tool" "$to/bin/phuyurik"
cat >"$to/lib/pkgconfig/phuyurik.pc" <<END
prefix=$prefix
includedir=\${prefix}/include
libdir=\${prefix}/lib

Name: phuyurik
Description: A proved emulator for trim recipes
Version: $(number MAJOR).$(number MINOR).$(number PATCH)
Cflags: -I\${includedir}
Libs: -L\${libdir} -lphuyurik
END
