#!/bin/sh
# Installs the library for C below a folder, or removes it (LIBRARY.md, "Installing").
#   install.sh [--libdir FOLDER] [PREFIX]    below PREFIX, or /usr/local; the libraries in FOLDER, `lib` unless it is given, which is below
#                                            PREFIX unless it begins with `/`. With DESTDIR set, below that folder, to be packed.
#   install.sh --uninstall [PREFIX]          removes what was installed there, which PREFIX/share/serde_qs/manifest lists
#   install.sh --help                        prints these lines
set -eu
umask 022

usage() {
    sed -n 's/^#   //p' "$0"
}

wrong() {
    echo "install.sh: $1" >&2
    usage >&2
    exit 2
}

prefix='' libdir=lib verb=install
while [ $# -gt 0 ]; do
    case $1 in
    --help) usage && exit ;;
    --uninstall) verb=uninstall ;;
    --libdir) [ $# -gt 1 ] || wrong '--libdir needs a folder'; libdir=$2 && shift ;;
    --libdir=?*) libdir=${1#*=} ;;
    -*) wrong "there is no option '$1'" ;;
    '') wrong 'a folder has no name' ;;
    *) [ -z "$prefix" ] || wrong 'there is more than one PREFIX'; prefix=$1 ;;
    esac
    shift
done
prefix=$(realpath -m -- "${prefix:-/usr/local}")
case $libdir in /*) libdir=$(realpath -m -- "$libdir") ;; *) libdir=$(realpath -m -- "$prefix/$libdir") ;; esac
case $prefix$libdir in *[\"\\\$\#\;]*) wrong 'a path holds one of " \ $ # ;, which the files for pkg-config and CMake cannot name' ;; esac
to=${DESTDIR:-}
manifest=$prefix/share/serde_qs/manifest

# Removes what the manifest lists: files, and those folders that were made for them, if they are empty.
uninstall() {
    LC_ALL=C sort -r "$to$manifest" | while IFS= read -r path; do
        case $path in
        */) rmdir -- "$to$path" 2>/dev/null || : ;;
        *) rm -f -- "$to$path" ;;
        esac
    done
}

if [ "$verb" = uninstall ]; then
    [ -e "$to$manifest" ] || { echo "install.sh: there is no $to$manifest, so nothing is removed" >&2; exit 1; }
    uninstall
    exit
fi

# In the repository the files are built first.
files=$(cd -- "$(dirname -- "$0")" && pwd)
[ ! -x "$files/build" ] || files=$("$files/build")/installer
version=$(sed -nE 's/^#define QS_VERSION_(MAJOR|MINOR|PATCH) //p' "$files/include/serde_qs.h" | paste -s -d .)
major=${version%%.*}
installed='' newline='
'
[ ! -e "$to$manifest" ] || uninstall

# folder PATH: makes the folder, and notes each that wasn't there.
folder() {
    [ "$1" = / ] || [ -d "$to$1" ] || { folder "$(dirname -- "$1")" && mkdir -- "$to$1" && installed=$installed$1/$newline; }
}

# file MODE SOURCE PATH: installs a file; of the standard input if SOURCE is -.
file() {
    folder "$(dirname -- "$3")"
    rm -f -- "$to$3"
    if [ "$2" = - ]; then cat >"$to$3"; else cp -- "$files/$2" "$to$3"; fi
    chmod "$1" "$to$3"
    installed=$installed$3$newline
}

# name_of TARGET PATH: makes a symbolic link.
name_of() {
    ln -sf -- "$1" "$to$2"
    installed=$installed$2$newline
}

[ -z "$to" ] || mkdir -p -- "$to"
for name in include/serde_qs.h include/serde_qs.hpp; do
    file 644 "$name" "$prefix/$name"
done
for name in "$files"/share/man/man3/* "$files"/share/doc/serde_qs/*; do
    file 644 "${name#"$files/"}" "$prefix/${name#"$files/"}"
done
file 644 lib/libserde_qs.a "$libdir/libserde_qs.a"
file 644 "lib/libserde_qs.so.$version" "$libdir/libserde_qs.so.$version"
name_of "libserde_qs.so.$version" "$libdir/libserde_qs.so.$major"
name_of "libserde_qs.so.$major" "$libdir/libserde_qs.so"
file 644 - "$libdir/pkgconfig/serde_qs.pc" <<END
prefix=$prefix
libdir=$libdir
includedir=\${prefix}/include

Name: serde_qs
Description: Nested querystrings, read as JSON and written from JSON
Version: $version
License: MIT OR Apache-2.0
Libs: -L"\${libdir}" -lserde_qs
Cflags: -I"\${includedir}"
END
file 644 - "$libdir/cmake/serde_qs/serde_qs-config.cmake" <<END
# The targets serde_qs::serde_qs, the shared library, and serde_qs::static.
if(NOT TARGET serde_qs::serde_qs)
    add_library(serde_qs::serde_qs SHARED IMPORTED)
    add_library(serde_qs::static STATIC IMPORTED)
    set_target_properties(serde_qs::serde_qs PROPERTIES
        IMPORTED_LOCATION "\${CMAKE_CURRENT_LIST_DIR}/../../libserde_qs.so.$version" IMPORTED_SONAME libserde_qs.so.$major)
    set_target_properties(serde_qs::static PROPERTIES IMPORTED_LOCATION "\${CMAKE_CURRENT_LIST_DIR}/../../libserde_qs.a")
    set_target_properties(serde_qs::serde_qs serde_qs::static PROPERTIES INTERFACE_INCLUDE_DIRECTORIES
        "\${CMAKE_CURRENT_LIST_DIR}/$(realpath -m --relative-to="$libdir/cmake/serde_qs" -- "$prefix/include")")
endif()
END
file 644 - "$libdir/cmake/serde_qs/serde_qs-config-version.cmake" <<END
set(PACKAGE_VERSION "$version")
if(PACKAGE_FIND_VERSION_MAJOR EQUAL $major AND NOT PACKAGE_FIND_VERSION VERSION_GREATER PACKAGE_VERSION)
    set(PACKAGE_VERSION_COMPATIBLE TRUE)
endif()
if(PACKAGE_FIND_VERSION VERSION_EQUAL PACKAGE_VERSION)
    set(PACKAGE_VERSION_EXACT TRUE)
endif()
END
folder "$(dirname -- "$manifest")"
printf '%s%s\n' "$installed" "$manifest" >"$to$manifest"
