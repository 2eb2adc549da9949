# What an installed library is: its files, its calls, how it is linked, what it says of itself; and how it is packed and installed. bindings/try
# sources this.

lib=$prefix/lib
version=$("$root/bindings/header" version)
calls=$("$root/bindings/header" calls)

try_files() {
    local name
    for name in include/serde_qs.{h,hpp} lib/libserde_qs.a lib/pkgconfig/serde_qs.pc lib/cmake/serde_qs/serde_qs-config{,-version}.cmake \
        share/doc/serde_qs/{LICENSE-MIT,LICENSE-APACHE,NOTICE,LIBRARY.md} share/man/man3/serde_qs.3; do
        runs "$name is installed" test -s "$prefix/$name"
    done
    same 'the name that programs look for' "$(readlink "$lib/libserde_qs.so.${version%%.*}")" "libserde_qs.so.$version"
    same 'the name that programs are linked by' "$(readlink "$lib/libserde_qs.so")" "libserde_qs.so.${version%%.*}"
    runs 'a package below DESTDIR' env DESTDIR="$room/packed" "$root/install" /usr
    same 'the prefix of a package' "$(sed -n 's/^prefix=//p' "$room/packed/usr/lib/pkgconfig/serde_qs.pc")" /usr
    same 'what is in no folder of the package' "$(find "$room/packed" -mindepth 1 -maxdepth 1)" "$room/packed/usr"
}

try_packages() {
    local word
    same 'the packages' "$(cd "$packages" && LC_ALL=C ls | sed "s/$version/V/" | tr '\n' ' ')" \
        'SHA256SUMS libserde-qs_V-1_amd64.deb serde_qs-V-linux-x86_64.tar.gz serde_qs-V-py3-none-manylinux2014_x86_64.whl serde_qs_proved-0.1.0.crate '
    runs 'their checksums' env -C "$packages" sha256sum -c --quiet SHA256SUMS
    runs 'the same packages again' "$root/bindings/package" again
    same 'their bytes' "$(cat again/SHA256SUMS)" "$(cat "$packages/SHA256SUMS")"
    for word in --wheel '' 'a b'; do
        ! "$root/bindings/package" $word >said 2>&1 && [ ! -e a ] && pass || fail "package with '$word' is no error"
    done
}

# The package for Debian, below an empty folder.
try_deb() {
    local target=$room/debian below=usr/lib/x86_64-linux-gnu
    command -v dpkg >/dev/null && [ "$(id -u)" = 0 ] || { echo '  there is no dpkg, or it has no right to install: the package for Debian is not tried'; return; }
    mkdir -p "$target"/var/lib/dpkg/{info,updates} && touch "$target/var/lib/dpkg/status"
    local dpkg=(dpkg --root="$target" --force-not-root --force-depends --force-bad-path --log=/dev/null)
    runs 'dpkg -i' "${dpkg[@]}" -i "$packages"/*.deb || return
    cmp -s "$target/$below/libserde_qs.a" "$lib/libserde_qs.a" && pass || fail 'the package for Debian has another library'
    same 'its name for programs' "$(readlink "$target/$below/libserde_qs.so.${version%%.*}")" "libserde_qs.so.$version"
    if command -v cc >/dev/null; then
        cp "$tests"/c/{call.h,cases.c} .
        runs 'a program by that package' cc -std=c11 cases.c -I"$target/usr/include" -L"$target/$below" -lserde_qs -o by_deb
        same 'what it prints' "$(LD_LIBRARY_PATH=$target/$below ./by_deb <calls | head -n 1)" "$(head -n 1 wanted)"
    fi
    runs 'dpkg -r' "${dpkg[@]}" -r libserde-qs
    same 'what is left of it' "$(find "$target/usr" -type f 2>/dev/null)" ''
}

# What isn't an installation installs nothing; one is removed whole, without what else is there.
try_options() {
    local odd="$room/an odd 'folder'" word
    mkdir nowhere "$odd" && cd nowhere || return
    same 'install --help' "$("$root/install" --help | head -n 1 | cut -c 1-10)" install.sh
    for word in --prefix=/x --libdir '' '/a /b' '/a$b'; do
        "$root/install" $word "${word:+/c}" </dev/null >"$room/said" 2>&1
        [ $? -eq 2 ] || [ "$word" = --libdir ] && pass || fail "install with '$word' is no error"
        rm -rf /c
    done
    same 'what those install' "$(ls)" ''
    cd "$room" || exit 1
    touch "$odd/kept"
    runs 'install into an odd folder' "$root/install" "$odd" --libdir=lib64/x
    same 'the folder of the libraries' "$(sed -n 's/^libdir=//p' "$odd/lib64/x/pkgconfig/serde_qs.pc")" "$odd/lib64/x"
    runs 'install over it' "$root/install" --libdir lib "$odd"
    same 'what was installed first' "$(LC_ALL=C ls "$odd" | tr '\n' ' ')" 'include kept lib share '
    ! command -v pkg-config >/dev/null || same 'paths for pkg-config' "$(PKG_CONFIG_PATH=$odd/lib/pkgconfig pkg-config --cflags --libs serde_qs | xargs printf '%s\n')" \
        "-I$odd/include"$'\n'"-L$odd/lib"$'\n-lserde_qs'
    try_cmake "$odd"
    runs 'uninstall' "$root/install" --uninstall "$odd"
    same 'what is left' "$(ls "$odd")" kept
    ! "$root/install" --uninstall "$odd" 2>said && pass || fail 'a second uninstall is no error'
}

try_cmake() {
    command -v cmake >/dev/null && command -v cc >/dev/null || { echo '  there is no cmake, or no cc: the files for CMake are not tried'; return; }
    mkdir made && cp "$tests/c/call.h" "$tests/c/cases.c" made/ && cat >made/CMakeLists.txt <<'END'
cmake_minimum_required(VERSION 3.10)
project(made C)
find_package(serde_qs 1.1 REQUIRED)
find_package(serde_qs 2 QUIET)
add_executable(shared cases.c)
target_link_libraries(shared serde_qs::serde_qs)
add_executable(static cases.c)
target_link_libraries(static serde_qs::static)
END
    runs 'CMake finds the library' cmake -S made -B made/out -DCMAKE_PREFIX_PATH="$1" -DCMAKE_BUILD_TYPE=Release || return
    runs 'CMake builds programs' cmake --build made/out || return
    for program in shared static; do
        same "a program by CMake, $program" "$(env -u LD_LIBRARY_PATH "made/out/$program" <calls | head -n 1)" "$(head -n 1 wanted)"
    done
}

# The calls alone are exported, with the versions of the interface; no address of them can be overwritten; and nothing but the C library is needed.
try_linking() {
    local shared=$lib/libserde_qs.so found
    runs 'what the library needs is in glibc 2.17' python3 -B "$root/bindings/elf.py" manylinux "$shared"
    ! command -v objdump >/dev/null || same 'the same by objdump' \
        "$({ objdump -T "$shared" | grep -o 'GLIBC_[0-9.]*'; echo GLIBC_2.17; } | sort -uV | tail -n 1)" GLIBC_2.17
    command -v nm >/dev/null && command -v readelf >/dev/null || { echo '  there is no nm or no readelf: what is exported is not tried'; return; }
    same 'what the shared library exports' "$(nm -D --defined-only "$shared" | awk '$2 != "A" { sub(/@.*/, "", $3); print $3 }' | sort)" "$(sort <<<"$calls")"
    same 'the versions' "$(readelf -W --dyn-syms "$shared" | grep -c ' qs_[a-z_]*@@SERDE_QS_1')" "$(wc -l <<<"$calls")"
    same 'what the static library exports' "$(nm -g --defined-only "$lib/libserde_qs.a" | awk 'NF == 3 { print $3 }' | sort)" "$(sort <<<"$calls")"
    found=$(readelf -dW "$shared")
    same 'the soname' "$(sed -n 's/.*SONAME.*\[\(.*\)\]/\1/p' <<<"$found")" "libserde_qs.so.${version%%.*}"
    same 'what is needed' "$(sed -n 's/.*NEEDED.*\[\(.*\)\]/\1/p' <<<"$found")" libc.so.6
    runs 'addresses are bound at once' grep -q 'FLAGS.*NOW' <<<"$found"
    runs 'addresses are read-only' grep -q GNU_RELRO <<<"$(readelf -lW "$shared")"
}

try_manual() {
    local page
    command -v man >/dev/null || { echo '  there is no man: its pages are not tried'; return; }
    for page in serde_qs $calls; do
        man -M "$prefix/share/man" --warnings 3 "$page" >"$room/shown" 2>"$room/said"
        same "warnings of man 3 $page" "$(cat "$room/said")" ''
        runs "man 3 $page" grep -q 'nested querystrings' "$room/shown"
    done
    for page in $calls; do
        runs "$page in the manual" grep -q "$page(" "$room/shown"
    done
}

# The wrappers take the version of the header, and a later one of the same major version.
try_versions() {
    local numbers=${version//./, }
    runs 'the version that Python takes' grep -q "^WANTED = ($numbers, 1)$" "$root/bindings/python/serde_qs/_library.py"
    runs 'the version that Rust finds' grep -q "^const WANTED: \[u32; 3\] = \[$numbers\];$" "$root/bindings/rust/build.rs"
    runs 'the version that Rust takes' grep -q "^const WANTED: u32 = ${version%%.*} << 24 | $(cut -d . -f 2 <<<"$version") << 16 | ${version##*.} << 8 | 1;$" \
        "$root/bindings/rust/src/calls.rs"
    ! command -v pkg-config >/dev/null || same 'the version by pkg-config' "$(pkg-config --modversion serde_qs)" "$version"
}

try_packages
try_deb
try_files
try_options
try_linking
try_manual
try_versions
