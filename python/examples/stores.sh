#!/bin/sh
# stores.sh FOLDER says of each key store in a folder whether it is normal, and of those that are what they hold.
set -eu
for store in "$1"/*.p12; do
    if vuyhanip check --kind rawpfx "$store"; then
        vuyhanip show "$store"
    fi
done
