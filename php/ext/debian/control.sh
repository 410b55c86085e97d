#!/bin/sh
# SPDX-License-Identifier: MIT
# Writes debian/control for some versions of PHP out of control.in: debian/control.sh VERSION..
set -eu
cd "$(dirname "$0")"
[ $# -gt 0 ] || { echo 'control.sh: no PHP has phpize: apt-get install php-dev' >&2; exit 1; }
{
    sed -n '1,/^$/p' control.in
    for version; do sed -n "/^Package: php@PHP@/,/^\$/{s/@PHP@/$version/g;p}" control.in; done
    sed -n "/^Package: yilumbaso/,\${s/@PHP@/$1/g;p}" control.in
} > control.new
mv control.new control
