#!/usr/bin/env bash
# Prints the Python that builds and tests the module in bindings/python: $PYTHON if it is set, else the first of /usr/bin/python3 and
# python3 that has setuptools and its own Python.h. Cython may belong to another Python: it is run as a program. If something is missing,
# the output names it, and the status is 1.
set -euo pipefail
if ! command -v cython3 >/dev/null && ! command -v cython >/dev/null; then
    echo "there is no Cython here"
    exit 1
fi
builds='import os, setuptools, sysconfig; raise SystemExit(not os.path.isfile(sysconfig.get_paths()["include"] + "/Python.h"))'
pythons=(/usr/bin/python3 python3)
if [ "${PYTHON:-}" ]; then pythons=("$PYTHON"); fi
for python in "${pythons[@]}"; do
    if "$python" -c "$builds" >/dev/null 2>&1; then
        echo "$python"
        exit
    fi
done
echo "there is no setuptools, or no Python.h, for ${pythons[*]} here"
exit 1
