#!/usr/bin/env bash
# Tests the package of the Python module: the archive of its sources, the wheel, and what pip installs. Each is built in a copy of
# bindings/, and used in an environment of its own without the library. Also tested: which Pythons setup.py accepts, its errors, and the
# import of a package that is not built. RANGE_MAP_OUT names the folder of the built library; without it this is bindings/out. Nothing is
# downloaded. The last line is 'N passed, M failed'.
set -euo pipefail
source "$(dirname "$(readlink -f "${BASH_SOURCE[0]}")")/judge.sh"
top="$(cd "$tests/.." && pwd)"
built="$(readlink -f "${RANGE_MAP_OUT:-$top/bindings/out}")"
unset RANGE_MAP_OUT
python="$("$tests/bindings_python.sh")" || { echo "python_package: $python: left out" && tell && exit; }
python="$(command -v "$python")"
if ! "$python" -c 'import wheel, venv, ensurepip' 2>/dev/null; then
    echo "python_package: there is no python3-wheel or python3-venv here: left out"
    tell
    exit
fi

# Runs a command in $here, without the settings of the caller, and with those in $settings. (Cython may be elsewhere than in /usr/bin.)
here="$work"
cython="$(dirname "$(command -v cython3 || command -v cython)")"
settings=()
clean() { (cd "$here" && env -i PATH="/usr/bin:/bin:$cython" HOME="$work" CFLAGS=-O0 "${settings[@]}" "$@"); }
# A command that must succeed. What a failed one printed follows.
does() { # what it is called here, the command
    local what="$1" status=0
    shift
    clean "$@" >"$work/said" 2>&1 || status=$?
    judge 0 "$status" "$what"
    if [ "$status" != 0 ]; then tail -n 20 "$work/said"; fi
}
# A command that must fail with status 1, and end with a line that has a text.
fails() { # what it is called here, the text, the command
    local what="$1" text="$2" status=0
    shift 2
    clean "$@" >"$work/said" 2>&1 || status=$?
    judge 1 "$status" "$what: status"
    judge yes "$(tail -n 1 "$work/said" | grep -qF -- "$text" && echo yes || cat "$work/said")" "$what"
}
environment() { # its name, arguments
    does "an environment" "$python" -m venv "$work/$1" "${@:2}"
    pip="$work/$1/bin/pip --disable-pip-version-check"
}
# What an environment's package prints, with the library nowhere in sight.
says='import pickle, range_map
m = range_map.RangeMap(); m[2:6] = "a"; m[4:10] = "b"
print(pickle.loads(pickle.dumps(m)), [type(each).__module__ for each in (m, m.freeze())])'
prints() { # what it is called here, the environment
    judge "RangeMap([(2, 4, 'a'), (4, 10, 'b')]) ['range_map', 'range_map']" "$(here=/ clean "$work/$2/bin/python" -c "$says" 2>&1)" "$1"
}
files_in() { git ls-files --cached --others --exclude-standard -- "$@"; } # paths
tree() { # a new copy of bindings/ and of the licences, its folder
    mkdir "$1"
    (cd "$top" && files_in bindings LICENSE LICENSE-MIT LICENSE-APACHE | xargs -d '\n' cp -P --parents -t "$1")
}

tree "$work/tree"
module="$work/tree/bindings/python"
version="$(sed -n 's/^#define RANGE_MAP_VERSION "\(.*\)"/\1/p' "$top/bindings/range_map.h")"

# ---- Which Pythons it accepts: asked before anything else is imported
accepts() { # the version
    local as="import sys; sys.version_info = ($1, 0); sys.modules['setuptools'] = None"
    clean "$python" -c "$as; exec(open('setup.py').read())" 2>&1 | tail -n 1 || true
}
here="$module"
for each in 3,6 3,8 3,12 3,13 4,0; do
    judge "setup: range_map supports Python 3.9 to 3.11, and this is Python ${each/,/.}" "$(accepts "$each")" "Python $each"
done
for each in 3,9 3,10 3,11; do
    judge yes "$(accepts "$each" | grep -q '^ModuleNotFoundError: .*setuptools' && echo yes)" "Python $each"
done

# ---- Nothing is built yet
here="$work"
which="$("$python" -c 'import sys; print("%d.%d" % sys.version_info[:2])')"
fails "an import" "is not built for $python, which is Python $which: run \`make -C bindings python PYTHON=$python\`" \
    env PYTHONPATH="$module" "$python" -c 'import range_map'
judge ImportError "$(tail -n 1 "$work/said" | cut -d : -f 1)" "an import"
build=("$python" setup.py -q build_ext --inplace)
here="$module"
settings=(PKG_CONFIG_LIBDIR="$work")
fails "no library" "run \`make -C bindings\` in the repository of range_map, or install the library" "${build[@]}"
fails "RANGE_MAP_OUT without an archive" "setup: RANGE_MAP_OUT is $work, which does not contain librange_map.a" \
    env RANGE_MAP_OUT="$work" "${build[@]}"
fails "a relative RANGE_MAP_OUT" "setup: RANGE_MAP_OUT is the relative path '../out': set an absolute path" \
    env RANGE_MAP_OUT=../out "${build[@]}"
judge '' "$(find "$module" -name range_map.c)" "no build begins without the library"

# ---- The archive of the sources, made without the library
does "the archive of the sources" make --no-print-directory -s -C .. "RANGE_MAP_OUT=$work/sources" "PYTHON=$python" sdist
judge '' "$(cat "$work/said")" "what setup.py says of it"
archive="$work/sources/range_map-$version.tar.gz"
sources="$(cd "$top/bindings/python" && files_in . | LC_ALL=C sort)"
packed="$(tar -tzf "$archive" | sed 's|^[^/]*/||; /egg-info/d; /\/$/d; /^$/d; /^PKG-INFO$/d; /^setup\.cfg$/d' | LC_ALL=C sort)"
judge "$sources" "$packed" "its files"

# ---- The sources, built over an installed library by pip
here="$work"
settings=()
does "the library, installed" make --no-print-directory -s -C "$top/bindings" "RANGE_MAP_OUT=$built" "PREFIX=$work/installed" install
environment from_sources --system-site-packages
settings=(PKG_CONFIG_PATH="$work/installed/lib/pkgconfig")
mv "$work/installed/lib/librange_map.a" "$work"
here="$module"
fails "an installed library without its archive" "setup: the installed library has no $work/installed/lib/librange_map.a" "${build[@]}"
here="$work"
mv "$work/librange_map.a" "$work/installed/lib"
does "the sources, installed" $pip install -q --no-build-isolation --no-index "$archive"
settings=()
rm -r "$work/installed"
needed="$(readelf -d "$work"/from_sources/lib/python3*/site-packages/range_map/*.so | grep -o 'librange_map[^]]*' || true)"
judge '' "$needed" "shared libraries of range_map that it needs"
prints "the sources, used" from_sources

# ---- The command of its page, in a copy of the repository
tree "$work/clone"
mkdir "$work/clone/bindings/out"
cp "$built/librange_map.a" "$work/clone/bindings/out"
here="$work/clone"
sed -n 's/^    \(python3 -m venv\|environment\/\)/\1/p' "$module/README.md" >"$work/commands"
judge 2 "$(wc -l <"$work/commands")" "the commands of the page"
mkdir "$work/bin"
ln -s "$python" "$work/bin/python3"
settings=(PATH="$work/bin:/usr/bin:/bin:$cython")
does "the commands of the page, run" bash -e "$work/commands"
settings=()
prints "what they installed" clone/environment

# ---- The wheel
here="$work"
mkdir "$work/out"
cp "$built/librange_map.a" "$built/librange_map.so.0" "$built/PROOF" "$work/out"
does "the wheel" make --no-print-directory -s -C "$work/tree/bindings" "RANGE_MAP_OUT=$work/out" "PYTHON=$python" wheel
environment from_wheel
does "the wheel, installed" $pip install -q --no-index "$work"/out/range_map-"$version"-*.whl
prints "the wheel, used" from_wheel
site="$(echo "$work"/from_wheel/lib/python3*/site-packages)"
about="$site/range_map-$version.dist-info"
files="$(cd "$site/range_map" && find . -type f -not -name '*.pyc' -printf '%f\n' | sed 's/\.cpython.*\.so/.*.so/' | LC_ALL=C sort)"
judge "__init__.*.so __init__.py __init__.pyi py.typed" "$(paste -sd ' ' <<<"$files")" "the files of the package"
for file in LICENSE LICENSE-MIT LICENSE-APACHE; do judge '' "$(cmp "$top/$file" "$about/$file" 2>&1)" "$file of the wheel"; done
of() { sed -n "/^$/q; s/^$1: //p" "$about/METADATA"; } # a field of the metadata
judge range_map "$(of Name | tr - _)" "the name"
judge "$version" "$(of Version)" "the version"
judge "MIT OR Apache-2.0" "$(of License)" "the licence"
judge "<3.12 >=3.9" "$(of Requires-Python | tr -d ' ' | tr , '\n' | LC_ALL=C sort | paste -sd ' ')" "the Pythons"
judge text/markdown "$(of Description-Content-Type)" "the kind of the page"
judge yes "$([ "$(of Summary)" ] && echo yes)" "the summary"
judge yes "$(of Classifier | grep -qx 'Programming Language :: Python :: 3.11' && echo yes)" "the classifiers"
judge '' "$(sed '1,/^$/d' "$about/METADATA" | diff -B "$module/README.md" - | head -n 5)" "the page"
does "the example of the page" "$work/from_wheel/bin/python" -m doctest "$module/README.md"
tell
