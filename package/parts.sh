# The parts of an installation, which package/install and package/unproved have in common. To be sourced at the top of
# the repository; a caller sets
#   root        the folder that is installed into
#   libdir      the folder of the libraries in it, as in lib
#   version     what the header, the libraries and the packages say of themselves
#   seconds     the time of the manual pages, since 1970
#   processors  what the library was built for: x86-64 or x86-64-v2
#   library     the static library of der_c
#   programs    the programs, an array
#   room        a temporary folder
# and calls install_parts.
# shellcheck shell=bash disable=SC2154

stop() {
    echo "package/$(basename "$0"): $1" >&2
    exit 1
}

# The names of the library, each of which der.h declares, and no others.
names() {
    nm --defined-only --extern-only "$library" | sed -n 's/^[0-9a-f]* T \(der_.*\)$/\1/p' | sort -u > "$room/made"
    sed -n 's/^uint32_t \(der_[a-z0-9_]*\)(.*/\1/p' c/der.h | sort -u > "$room/declared"
    diff "$room/declared" "$room/made" >&2 || stop "c/der.h and the library have other names"
    { cat "$room/made"; printf 'der_processor\nder_version\n'; } | sort
}

# The header says of which version it is, in words and as a number.
header() {
    local first second third
    IFS=.+- read -r first second third _ <<< "$version"
    mkdir -p "$root/include"
    sed "s/^#define DER_H\$/&\n\n#define DER_VERSION \"$version\"\n#define DER_VERSION_NUMBER \
$((10000 * first + 100 * second + third))/" c/der.h > "$root/include/der.h"
    grep -qxF "#define DER_VERSION \"$version\"" "$root/include/der.h" || stop "c/der.h defines no DER_H"
}

# One object with these names alone, over the library, the kit's heap and c/version.c. It notes a level of processors,
# so that the loader refuses a caller on an older one; none is noted of any x86-64.
object() {
    local heap levels=() flags=(-O2 -fPIC -std=c11 -Wall -Wextra -Werror "-ffile-prefix-map=$PWD=.")
    [ "$processors" = x86-64 ] || levels=(-z "$processors")
    heap=$(dirname "$(rt doc)")/c/liblibc_c.a
    flags+=("-I$root/include" "-DDER_PROCESSOR=\"$processors\"")
    "${CC:-cc}" "${flags[@]}" -c c/version.c -o "$room/version.o"
    ld -r "${levels[@]}" -o "$room/vuyhanip.o" --whole-archive "$library" "$heap" --no-whole-archive "$room/version.o"
    objcopy --keep-global-symbols="$room/names" --strip-unneeded "$room/vuyhanip.o"
}

# The static and the shared library. A name may change in each 0.N, so the soname has both numbers.
libraries() {
    local words=(-shared -Wl,-s,-z,defs,-z,relro,-z,now,-z,noexecstack -Wl,--build-id=sha1)
    ar rcsD "$room/libvuyhanip.a" "$room/vuyhanip.o"
    { echo '{ global:'; sed 's/$/;/' "$room/names"; echo 'local: *; };'; } > "$room/script"
    "${CC:-cc}" "${words[@]}" "-Wl,--version-script=$room/script,-soname,$soname" "$room/vuyhanip.o" -o "$room/$soname"
    mkdir -p "$root/$libdir"
    install -m 644 "$room/libvuyhanip.a" "$room/$soname" "$root/$libdir"
    ln -sf "$soname" "$root/$libdir/libvuyhanip.so"
}

# How a caller's build finds the libraries.
pkg_config() {
    mkdir -p "$root/$libdir/pkgconfig"
    cat > "$root/$libdir/pkgconfig/vuyhanip.pc" <<EOF
prefix=\${pcfiledir}/..$(sed 's,[^/][^/]*,..,g; s,^,/,' <<< "$libdir")
includedir=\${prefix}/include
libdir=\${prefix}/$libdir

Name: vuyhanip
Description: checks and rewritings of DER, and the parts of PKCS #12 and PKCS #7 containers
Version: $version
Cflags: -I\${includedir}
Libs: -L\${libdir} -lvuyhanip
EOF
}

# The package for Python; its library is the shared one, by a link.
python_package() {
    local to=$root/lib/python3/dist-packages/vuyhanip
    mkdir -p "$to"
    install -m 644 python/vuyhanip/*.py python/vuyhanip/py.typed "$to"
    printf '"""Written by package/%s."""\nVERSION = "%s"\n' "$(basename "$0")" "$version" > "$to/version.py"
    ln -sf "../../..${libdir#lib}/$soname" "$to/libvuyhanip.so"
    [ -e "$to/libvuyhanip.so" ] || stop "$libdir is not below lib"
}

# The programs, and the command of the package for Python, over the package beside it.
commands() {
    mkdir -p "$root/bin"
    install -m 755 "${programs[@]}" "$root/bin"
    cat > "$root/bin/vuyhanip" <<'EOF'
#!/usr/bin/env python3
import os
import sys

sys.path.insert(0, os.path.join(os.path.dirname(os.path.realpath(__file__)), "../lib/python3/dist-packages"))
from vuyhanip.command import main

sys.exit(main())
EOF
    chmod 755 "$root/bin/vuyhanip"
}

# The crate for Rust, with the version and the tests of its calls.
rust_crate() {
    local to=$root/share/vuyhanip/rust
    mkdir -p "$to/src" "$to/tests" "$to/examples"
    install -m 644 rust/build.rs "$to"
    install -m 644 rust/src/* "$to/src"
    install -m 644 rust/tests/calls.rs rust/tests/*.{der,p12,p7m} "$to/tests"
    install -m 644 rust/examples/* "$to/examples"
    sed "s/^version = .*/version = \"${version/.dev/-dev.}\"/" rust/Cargo.toml > "$to/Cargo.toml"
}

documents() {
    local to=$root/share/doc/vuyhanip
    mkdir -p "$to/docs/theorems" "$to/examples"
    install -m 644 README.md CHANGELOG.md CONTRIBUTING.md "$to"
    install -m 644 docs/*.* "$to/docs"
    install -m 644 docs/theorems/* "$to/docs/theorems"
    install -m 644 c/tests/{check,installed}.c "$to/examples"
    install -m 644 c/examples/{build_enveloped,build_signed,build_store,digest,encrypt,entries}.c "$to/examples"
    install -m 644 c/examples/{from_ber,mac,parameters,store,verify}.c "$to/examples"
    install -m 644 python/examples/{build_enveloped,build_signed,build_store,digest,encrypt,entries}.py "$to/examples"
    install -m 644 python/examples/{parameters,scan,sign_program,store,verify}.py "$to/examples"
    install -m 755 python/examples/stores.sh "$to/examples"
}

# All of these.
install_parts() {
    soname=libvuyhanip.so.$(sed 's/\.[0-9]*$//' VERSION)
    names > "$room/names"
    header
    object
    libraries
    pkg_config
    commands
    tools/pages "$version" "$seconds" "$root/include/der.h" "$root/share/man"
    python_package
    rust_crate
    documents
}
