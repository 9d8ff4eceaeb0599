#!/usr/bin/env bash
# The C library as a C program meets it: the header in C and C++, an installation, the program in README.md and the example desk
# built from it, and hostile calls under valgrind.
# Needs target/staticlib/libyolkgorge.a (`make`).
set -Eeuo pipefail
cd "$(dirname "$0")/.."
work=$(mktemp -d)
trap 'rm -rf "$work"' EXIT
trap 'echo "tests/c_library.sh: line $LINENO fails" >&2' ERR

# the header in C++, and areas of no length
cat > "$work/header.cc" <<'END'
#include "yolkgorge.h"
static const uint8_t record[] = {8, 0, 1, 0, 0, 0, 0, 0, 0, 0, 0, 0}, table[] = {32, 0, 1, 1, 0, 0};
template <typename planner> bool stands(planner plan) {
    return plan(nullptr, 0, nullptr, 0, nullptr, 0, nullptr, 0) == -YOLKGORGE_TRUNCATED
        && plan(table, sizeof table, nullptr, 0, nullptr, 0, nullptr, 0) == -YOLKGORGE_MAP
        && plan(record, sizeof record, nullptr, 0, nullptr, 0, nullptr, 0) == -YOLKGORGE_SHORT;
}
int main() {
    bool all = stands(yolkgorge_plan_fewest_payments) && stands(yolkgorge_plan_fewest_deliveries) && stands(yolkgorge_plan_fewest_moves);
    return all && yolkgorge_finished(nullptr, 0, 1) == YOLKGORGE_SHORT ? 0 : 1;
}
END
g++ -std=c++11 -Wall -Wextra -Werror -pedantic -Iinclude -o "$work/header" "$work/header.cc" target/staticlib/libyolkgorge.a
"$work/header"

# an installation, and programs built from it
make -s install PREFIX="$work/prefix" >/dev/null
flags=$(PKG_CONFIG_PATH="$work/prefix/lib/pkgconfig" pkg-config --cflags --libs yolkgorge 2>/dev/null || echo "-I$work/prefix/include -L$work/prefix/lib -lyolkgorge")
# shellcheck disable=SC2086
installed() { gcc -O2 -std=c99 -Wall -Wextra -Werror -pedantic -o "$1" "$2" $flags; }

# the program in README.md, its one block of C: the steps of case A as the printer writes them, and a refusal
awk '/^```c$/ { blocks++; inside = 1; next } /^```$/ { inside = 0 } inside; END { exit blocks != 1 }' README.md > "$work/readme.c"
installed "$work/readme" "$work/readme.c"
"$work/readme" < examples/records/case-a.bin | diff - <(sed '1,/^steps /d' examples/records/case-a.txt)
status=0
refused=$("$work/readme" < examples/records/case-b.bin) || status=$?
[ "$status $refused" = '1 refused 9' ]

# the desk
installed "$work/desk" examples/desk.c
"$work/desk" examples/records/case-a.bin | diff - examples/desk-case-a.txt
[ "$("$work/desk" examples/records/case-b.bin)" = 'refused 9' ]
[ "$("$work/desk" examples/records/case-c.bin)" = 'refused 9' ] # its start is not safe, but no bound shows it
"$work/desk" examples/records/case-d.bin | diff - <(printf 'refused 9\nthe start is not safe: its upper bound is -1\n')
# the offers of the desk: case G saves a payment by delivering first, and case F is a table
offers() { "$work/desk" "examples/records/$1.bin" | grep '^fewest'; }
offers case-g | diff - <(printf 'fewest %s: %s payments, 2 deliveries\n' payments 2 deliveries 3 moves 2)
offers case-f | diff - <(printf 'fewest %s: refused 2\n' payments deliveries moves)
make -s uninstall PREFIX="$work/prefix"
[ -z "$(find "$work/prefix" -type f)" ]

# hostile calls: nine entries, 2,000 times
gcc -O2 -g -std=c99 -Wall -Wextra -Werror -pedantic -Iinclude -o "$work/hostile" tests/hostile.c target/staticlib/libyolkgorge.a
valgrind -q --error-exitcode=9 "$work/hostile" 2000 examples/records/*.bin >/dev/null
echo 'the C library stands'
