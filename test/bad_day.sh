#!/bin/sh
# The bad day: damaged images, from which `udfburn-client salvage` gives back what is intact, with ddrescue, par2 and dvdisaster.
#
# usage: test/bad_day.sh [UDFBURN [UDFBURND [SEED]]]
# Its last line is 'bad_day: N passed, M failed'. What is not there is installed from Debian's packages where we may; what cannot be
# had fails the tests that take it.
set -u
cd "$(dirname "$0")/.." || exit 1
udfburn=${1:-crates/udfburn/out/udfburn}
seed=${3:-42}
room=$(mktemp -d) || exit 1
trap 'rm -rf "$room"' EXIT
trap 'exit 1' HUP INT PIPE TERM
# Each command takes the client as the first one compiled it, and its folder stays as it is.
unset PYTHONDONTWRITEBYTECODE
export PYTHONPYCACHEPREFIX="$room/compiled" PYTHONUTF8=1
for program in "$udfburn" python3; do
    if ! command -v "$program" > "$room/which"; then
        echo "bad_day: $program is no program"
        echo 'bad_day: 0 passed, 1 failed'
        exit 1
    fi
done
udfburn=$(cd "$(dirname "$udfburn")" && pwd)/$(basename "$udfburn")

for tool in ddrescue:gddrescue par2:par2 dvdisaster:dvdisaster gcc:gcc; do
    command -v "${tool%:*}" > "$room/which" || test/packages.sh "${tool#*:}" > "$room/apt.log" 2>&1 || echo "bad_day: ${tool%:*} cannot be had"
done
gcc -std=c11 -O2 -Wall -Wextra -shared -fPIC test/bad_day/unreadable.c -o "$room/unreadable.so" -ldl || echo 'bad_day: unreadable.c is not compiled'
mkdir "$room/images"
python3 test/bad_day/bad_day.py "$udfburn" "$room/images" "$room/unreadable.so" "$seed"
