#!/usr/bin/env bash
# Tests bindings/Makefile: installs the library and removes it, packs the archive, and builds programs with the unpacked archive by cc, by
# pkg-config and by CMake, without the toolchain. RANGE_MAP_OUT names the folder of the built library; without it this is bindings/out. The
# last line is 'N passed, M failed'.
set -euo pipefail
source "$(dirname "$(readlink -f "${BASH_SOURCE[0]}")")/judge.sh"
bindings="$(cd "$tests/../bindings" && pwd)"
built="$(readlink -f "${RANGE_MAP_OUT:-$bindings/out}")"

# Runs a command without the toolchain, in $here.
here="$work"
clean() { (cd "$here" && env -i PATH=/usr/bin:/bin HOME="$work" "$@"); }
# A command that must succeed. What a failed one printed follows.
does() { # what it is called here, the command
    local what="$1" status=0
    shift
    clean "$@" >"$work/said" 2>&1 || status=$?
    judge 0 "$status" "$what"
    if [ "$status" != 0 ]; then tail -n 20 "$work/said"; fi
}
# A program that must print what the example prints. It runs in another folder.
prints() { # what it is called here, the command
    local what="$1"
    shift
    judge "$expected" "$(here=/ clean "$@" 2>&1)" "$what"
}
has() {
    if clean sh -c "command -v $1" >/dev/null; then return 0; fi
    echo "package: there is no $1 here"
    return 1
}
files() { (cd "$1" && find . \( -type f -o -type l \) | LC_ALL=C sort | paste -sd ' '); }

expected="$(cat "$bindings/examples/ranges.expected")"
version="$(sed -n 's/^#define RANGE_MAP_VERSION "\(.*\)"/\1/p' "$bindings/range_map.h")"
name="range_map-$version"
judge '' "$(clean sh -c 'command -v rt')" "a PATH without the toolchain"

# ---- The library, in a folder of its own
mkdir "$work/out"
cp -P "$built/librange_map.a" "$built/librange_map.so.0" "$built/PROOF" "$work/out"
make=(make --no-print-directory -C "$bindings" "RANGE_MAP_OUT=$work/out")
does "make" "${make[@]}"
does "make check" "${make[@]}" check
judge 'all examples print what they should' "$(grep '^all ' "$work/said")" "what make check says"

# ---- Install
installed="./include/range_map.h ./include/range_map.hpp ./include/range_map_combine.hpp ./include/range_map_entry.hpp \
./include/range_map_iterator.hpp ./include/range_map_table.hpp ./lib/cmake/range_map/range_map-config-version.cmake \
./lib/cmake/range_map/range_map-config.cmake ./lib/librange_map.a ./lib/librange_map.so ./lib/librange_map.so.0 \
./lib/pkgconfig/range_map.pc ./share/doc/range_map/LICENSE ./share/doc/range_map/LICENSE-APACHE ./share/doc/range_map/LICENSE-MIT ./share/doc/range_map/PROOF \
./share/doc/range_map/README"
does "make install" "${make[@]}" install PREFIX=/usr "DESTDIR=$work/root"
judge "$installed" "$(files "$work/root/usr")" "the installed files"
judge "prefix=/usr includedir=\${prefix}/include libdir=\${prefix}/lib" "$(head -n 3 "$work/root/usr/lib/pkgconfig/range_map.pc" | paste -sd ' ')" \
    "the folders in range_map.pc"
judge '' "$(grep -rlE '@[A-Z_]+@' "$work/root" || true)" "words in the files that were not replaced"
touch "$work/root/usr/lib/other.so" "$work/root/usr/share/doc/other"
does "make uninstall" "${make[@]}" uninstall PREFIX=/usr "DESTDIR=$work/root"
judge "./lib/other.so ./share/doc/other" "$(files "$work/root/usr")" "what make uninstall leaves"
judge '' "$(find "$work/root" -name 'range_map*')" "folders that make uninstall leaves"
multi=(PREFIX="$work/multi" libdir="$work/multi/lib/x86_64-linux-gnu" includedir="$work/multi/include/range_map")
does "make install to other folders" "${make[@]}" install "${multi[@]}"

# ---- Folders with a space: DESTDIR and the sources may have one, the others are rejected before a file is written
does "make install to a folder with a space" "${make[@]}" install PREFIX=/usr "DESTDIR=$work/root of all"
judge "$installed" "$(files "$work/root of all/usr")" "the installed files in a folder with a space"
does "make uninstall from a folder with a space" "${make[@]}" uninstall PREFIX=/usr "DESTDIR=$work/root of all"
judge '' "$(files "$work/root of all")" "what make uninstall leaves in a folder with a space"
# The files here and those that are new in bindings/.
all_files() { find "$work" "$bindings" -maxdepth 1 -name said -prune -o -printf '%p\n' | LC_ALL=C sort; }
before="$(all_files)"
for variable in PREFIX includedir libdir docdir RANGE_MAP_OUT; do
    for at in "$work/some place" "$work/place "; do
        what="make install $variable='$at'"
        judge 2 "$(clean "${make[@]}" install PREFIX="$work/place" "$variable=$at" >"$work/said" 2>&1 && echo 0 || echo $?)" "$what"
        judge 1 "$(grep -cF "$variable must be a path without spaces, and is '$at'" "$work/said")" "$what: what it says"
        judge "$before" "$(all_files)" "$what: files"
    done
done
mkdir -p "$work/the sources/bindings"
cp -r "$bindings"/{Makefile,range_map*,README.package,examples} "$work/the sources/bindings"
cp "$bindings"/../LICENSE* "$work/the sources"
cp -rP "$work/out" "$work/the sources/bindings"
sources=(make --no-print-directory -C "$work/the sources/bindings")
does "make check in a folder with a space" "${sources[@]}" check
does "make dist in a folder with a space" "${sources[@]}" dist SOURCE_DATE_EPOCH=1

# ---- The archive
does "make dist" "${make[@]}" dist
archive="$work/out/$name-x86_64-linux-gnu.tar.gz"
judge "$archive" "$(tail -n 1 "$work/said")" "the name of the archive"
cp "$archive" "$work/first.tar.gz"
does "make dist, again" "${make[@]}" dist
judge same "$(cmp "$archive" "$work/first.tar.gz" && echo same)" "two archives of one library"
judge "$(tar -tzf "$archive")" "$(tar -tzf "$work/the sources/bindings/out/${archive##*/}" 2>&1)" "the archive of a folder with a space: files"
mkdir "$work/some where"
does "tar" tar -C "$work/some where" -xzf "$archive"
judge "$name" "$(ls "$work/some where")" "the one folder of the archive"
mv "$work/some where/$name" "$work/unpacked"
judge "./LICENSE ./LICENSE-APACHE ./LICENSE-MIT ./PROOF ./README $installed" "$(files "$work/unpacked")" "the files of the archive"
judge '' "$(cmp "$built/PROOF" "$work/unpacked/PROOF" 2>&1)" "PROOF"
does "make clean" "${make[@]}" clean
judge "./PROOF ./librange_map.a ./librange_map.so.0" "$(files "$work/out")" "what make clean leaves"

# ---- The libraries
lib="$work/unpacked/lib"
declared="$(grep -v '^static inline' "$work/unpacked/include/range_map.h" | grep -oE '^[a-z0-9_]+ +range_[a-z_]+\(' | grep -oE 'range_[a-z_]+' | LC_ALL=C sort)"
judge "$declared" "$(nm -g --defined-only "$lib/librange_map.a" 2>/dev/null | sed -n 's/^[0-9a-f]* T \(range_.*\)$/\1/p' | LC_ALL=C sort)" "exports of the archive"
judge "$declared" "$(nm -D --defined-only "$lib/librange_map.so.0" | sed -n 's/^[0-9a-f]* [^ ] \(.*\)$/\1/p' | LC_ALL=C sort)" "exports of the shared library"
judge '[librange_map.so.0]' "$(readelf -d "$lib/librange_map.so.0" | sed -n 's/.*(SONAME).* //p')" "SONAME"
judge '[libc.so.6]' "$(readelf -d "$lib/librange_map.so.0" | sed -n 's/.*(NEEDED).* //p' | paste -sd ' ')" "libraries that the shared library needs"
judge librange_map.so.0 "$(readlink "$lib/librange_map.so")" "the link librange_map.so"
symbols() { nm "$@" "$lib/librange_map.a" 2>/dev/null | grep -oE '[^ ]+$' | LC_ALL=C sort -u; }
called="$(LC_ALL=C comm -23 <(symbols -u) <(symbols --defined-only))"
named="$(sed -n 's/^Calls: //p' "$work/unpacked/README" | { grep -oE '[a-z]+' || true; } | LC_ALL=C sort -u)"
judge '' "$(LC_ALL=C comm -23 <(echo "$called") <(echo "$named"))" "what the library calls and README does not name"

# ---- cc and c++
here="$work/programs"
mkdir "$here"
cp "$bindings/examples/ranges.c" "$bindings/examples/ranges.cpp" "$here"
sed -n '/^    #include/,/^    }/s/^    //p' "$work/unpacked/README" >"$here/readme.c"
cc=(cc -std=c99 -Wall -Wextra -pedantic -Werror -I "$work/unpacked/include")
does "cc, static" "${cc[@]}" -o static ranges.c "$lib/librange_map.a"
prints "cc, static: output" "$here/static"
does "cc, shared by its path" "${cc[@]}" -o by_path ranges.c "$lib/librange_map.so.0" -Wl,-rpath,"$lib"
judge '[librange_map.so.0]' "$(readelf -d "$here/by_path" | sed -n 's/.*(NEEDED).*\(\[librange.*\)/\1/p')" "cc, shared by its path: what it needs"
prints "cc, shared by its path: output" "$here/by_path"
does "cc, shared" "${cc[@]}" -o shared ranges.c -L "$lib" -lrange_map
prints "cc, shared: output" env LD_LIBRARY_PATH="$lib" "$here/shared"
does "c++, static" c++ -std=c++17 -Wall -Wextra -pedantic -Werror -I "$work/unpacked/include" -o cpp ranges.cpp "$lib/librange_map.a"
prints "c++, static: output" "$here/cpp"
does "the program of README" cc -Wall -I "$work/unpacked/include" -o readme readme.c -L "$lib" -lrange_map -Wl,-rpath,"$lib"
judge 7 "$(clean "$here/readme")" "the program of README: output"

# ---- pkg-config
if has pkg-config; then
    export_path="PKG_CONFIG_PATH=$lib/pkgconfig"
    judge "$version" "$(clean env "$export_path" pkg-config --modversion range_map)" "pkg-config --modversion"
    for define in '' --define-prefix; do
        what="pkg-config $define"
        does "$what" env "$export_path" sh -c "cc -o packaged ranges.c \$(pkg-config $define --cflags --libs range_map) -Wl,-rpath,$lib"
        prints "$what: output" "$here/packaged"
        rm -f "$here/packaged"
    done
    export_path="PKG_CONFIG_PATH=$work/multi/lib/x86_64-linux-gnu/pkgconfig"
    does "pkg-config, other folders" env "$export_path" sh -c "cc -o packaged ranges.c \$(pkg-config --cflags --libs range_map)"
    prints "pkg-config, other folders: output" env LD_LIBRARY_PATH="$work/multi/lib/x86_64-linux-gnu" "$here/packaged"
fi

# ---- CMake
if has cmake; then
    cat >"$here/CMakeLists.txt" <<'END_OF_LISTS'
cmake_minimum_required(VERSION 3.10)
project(ranges C CXX)
set(CMAKE_CXX_STANDARD 17)
set(ASKED 0.1 CACHE STRING "the version")
find_package(range_map ${ASKED} REQUIRED)
foreach(target range_map static)
    add_executable(c_${target} ranges.c)
    add_executable(cpp_${target} ranges.cpp)
    target_link_libraries(c_${target} range_map::${target})
    target_link_libraries(cpp_${target} range_map::${target})
endforeach()
END_OF_LISTS
    for at in "$work/unpacked" "$work/multi"; do
        what="CMake, ${at##*/}"
        does "$what" cmake -S . -B "build_${at##*/}" -D CMAKE_PREFIX_PATH="$at" -D CMAKE_LIBRARY_ARCHITECTURE=x86_64-linux-gnu
        does "$what: build" cmake --build "build_${at##*/}"
        for program in c_range_map c_static cpp_range_map cpp_static; do prints "$what: $program" "$here/build_${at##*/}/$program"; done
    done
    for asked in "$version" 0.1; do
        does "CMake, version $asked" cmake -S . -B build_unpacked -D ASKED="$asked"
    done
    for asked in 0.0.9 0.1.1 0.2 1; do
        judge 1 "$(clean cmake -S . -B build_unpacked -D ASKED="$asked" >"$work/said" 2>&1 && echo 0 || echo 1)" "CMake, version $asked"
    done
fi
tell
