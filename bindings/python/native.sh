#!/usr/bin/env bash
# native.sh LIB: builds the extension module of Python, _native.abi3.so, in the folder LIB, with the
# archive libchinese_number.a there, for every CPython from 3.10 on. It uses the header of python3,
# or of the Python that PYTHON names. The module also exports the library's calls, for ctypes. The
# script stops if the module needs a library or a version of one, or a name that is neither Python's
# nor below. native.sh --header prints the path where the header must be.
set -euo pipefail
[ $# -eq 1 ] || { sed -n '2,6s/^# //p' "$0"; exit 2; }
header=$("${PYTHON:-python3}" -c 'import sysconfig; print(sysconfig.get_path("include") + "/Python.h")')
[ "$1" != --header ] || { echo "$header"; exit 0; }
native=$(cd "$1" && pwd)/_native.abi3.so
known='_?Py[A-Z_]\w*|memcpy|memmove|memset|abort' # only the C source needs abort
cd "$(dirname "$0")"
scratch=$(mktemp -d)
trap 'rm -rf "$scratch"' EXIT
echo '{ global: PyInit__native; chinese_*; local: *; };' > "$scratch/names"
# A search takes up to an eighth longer if its functions do not begin at multiples of 32 bytes.
objcopy -w --set-section-alignment '.text.*=32' "${native%/*}/libchinese_number.a" "$scratch/aligned.a"
# It names no C library, as in archive.sh.
"${CC:-cc}" -std=c11 -O2 -Wall -Wextra -Wno-unused-parameter -Werror -fPIC -fvisibility=hidden -I"${header%/*}" -I../c -shared \
    -nostdlib native.c -Wl,--whole-archive "$scratch/aligned.a" -Wl,--no-whole-archive -lgcc \
    -Wl,--version-script="$scratch/names" -Wl,-z,relro,-z,now,-z,noexecstack -o "$native"
unknown=$(nm -D -u "$native" | awk '{print $NF}' | { grep -vxE "$known" || true; })
needed=$(objdump -p "$native" | awk '$1 == "NEEDED" {print $2}')
[ -z "$unknown$needed" ] || { echo "native: $native needs $unknown $needed" >&2; exit 1; }
