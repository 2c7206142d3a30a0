#!/bin/sh
# Builds the second program and holds it to published facts: run.sh
# With SANITIZE=1 it is built with the compiler's checks and run so.
set -u

here=$(cd "$(dirname "$0")" && pwd -P)
root=$(cd "$here/../.." && pwd -P)
test=tests/second
cc=${CC:-cc}
. "$root/tools/sanitizer"
sanitizer "$cc"
out=$root/target/second$checked
words="-std=c11 -Wall -Wextra -Werror -O2 $checks"

mkdir -p "$out" || exit 2
parts=''
for part in pec key sheet capture pack clock bus area shelf charger thirteen; do parts="$parts $root/second/$part.c"; done
# shellcheck disable=SC2086
"$cc" $words -o "$out/self" "$here/self.c" $parts || exit 2
# shellcheck disable=SC2086
"$cc" $words -o "$out/player" "$root/second/player.c" $parts || exit 2

"$out/self" || exit 1

failed=0
# Plays the bytes given in octal escapes and compares the lines.
expect() { # NAME BYTES LINES [ARGUMENT]
    # shellcheck disable=SC2059
    wrote=$(printf "$2" | "$out/player" ${4:+"$4"}; echo "end $?")
    wanted=$(printf '%send 0' "$3")
    if [ "$wrote" != "$wanted" ]; then
        echo "second: the player on $1 wrote: $wrote"
        failed=1
    fi
}
nl='
'
expect 'the example' '\003\000\005\001\003\000\005\026\002\012\000\107\026\011\027\026\002\012\000\106' "0${nl}0 d0397e${nl}5${nl}"
expect 'no bytes' '' "14${nl}"
expect 'no rows' '\000' ''
expect 'bytes behind the end' '\000\000' "14${nl}"
expect 'a cut capture' '\001\000\005\026\002\012\000' "14${nl}"
expect 'a mark of 2' '\001\002\000' "14${nl}"
expect 'an empty row' '\001\001\000' "3${nl}"

# Of the thirteen-cell pack: 08 to 16 (2,982 is BA6, 4,819 12D3, -123 FF85, 50 %, 291,000 / 1,234 minutes, none, bits 7
# and 6), cells 1 and 13, its health, then all cells; and what it refuses.
reads=''
for command in 010 011 012 015 021 023 026 061 075 117 361; do reads="$reads\\026\\$command\\027"; done
marks='\001\003\001\003\001\003\001\003\001\003\001\003\001\003\001\003\001\003\001\003\001\003'
words="0 a60b2a${nl}0 d31290${nl}0 85ff55${nl}0 3200e0${nl}0 eb0068${nl}0 ffffb4${nl}0 c00033${nl}"
words="${words}0 750ebb${nl}0 810e13${nl}0 610064${nl}"
cells='750e760e770e780e790e7a0e7b0e7c0e7d0e7e0e7f0e800e810e3c'
expect 'thirteen cells' "\\013$marks$reads" "${words}0 $cells${nl}" thirteen
rows='\000\004\000\005\000\005\000\005\000\005\001\003\001\003\001\000'
health='\026\117\141\000'
writes="$health$health\\062$health\\063\\026\\242\\000\\000\\215\\026\\027\\000\\000\\247"
refused="4${nl}8${nl}5${nl}7${nl}6${nl}7${nl}6${nl}3${nl}"
expect 'what thirteen cells refuse' "\\010$rows$writes\\026\\200\\027\\026\\027\\027" "$refused" thirteen
expect 'thirteen cells and a cut capture' '\001\000\005\026\002\012\000' "14${nl}" thirteen
[ "$failed" -eq 0 ] || exit 1
echo 'second: the player prints what document 01 shows, and what the thirteen-cell pack tells'
