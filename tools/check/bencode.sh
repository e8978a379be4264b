#!/bin/sh
# Compares payload acceptance of tools/oracle/payload.py with two bencode
# packages of Debian: libbencode-perl and python3-fastbencode. Installs them
# if they are missing, which needs the right to install packages.
set -eu
cd "$(dirname "$0")/.."
for package in libbencode-perl python3-fastbencode; do
    if ! dpkg -s "$package" >/dev/null 2>&1; then
        apt-get update
        apt-get install -y --no-install-recommends "$package"
    fi
done
# Debian's own Python: the package is installed for that one.
exec /usr/bin/python3 -B -m check.bencode
