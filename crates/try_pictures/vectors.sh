#!/bin/sh
# What the program is to write, drawn by netpbm alone (Debian's package, pcxtoppm and its kin): sh vectors.sh > stdout
set -eu
cd "$(dirname "$0")/data"
work=$(mktemp -d)
trap 'rm -r "$work"' EXIT

blank() { pbmmake -white 64 12 > "$work/page"; }

# An image with white on its right and below, cut to so many columns and rows
trim() { pnmpad -white -right "$1" -bottom "$2" | pamcut -left 0 -top 0 -width "$1" -height "$2"; }

# The picture in a file at x,y, cut at the label's width and length and at the page, and its black dots set there (to pnmpaste white is 1)
draw() { # file width length x y
    pcxtoppm "$1" | ppmtopgm | pgmtopbm -threshold | pnmpad -white -left "$4" -top "$5" | trim "$2" "$3" | trim 64 12 > "$work/picture"
    pnmpaste -and "$work/picture" 0 0 "$work/page" > "$work/next"
    mv "$work/next" "$work/page"
    echo "${6-$1}: legal"
}

show() { pnmtoplainpnm "$work/page" | tail -n +3 | tr 01 .#; }

alone() { blank; draw "$@"; show; }

alone across.pcx 608 12 4 1
alone literal.pcx 608 12 0 0
alone minima.pcx 608 12 5 2
alone minima.pcx 20 5 5 2
alone text.pcx 608 12 3 1
alone wide.pcx 50 12 10 3
alone tall.pcx 608 11 9 2
blank
draw literal.pcx 608 12 2 1
draw minima.pcx 608 12 7 3
show

# Paper 01 alone says of these that they are not legal
while read -r what; do echo "$what: not legal"; done <<'DAMAGED'
byte 0 is 11
byte 1 is 1
byte 1 is 6
byte 2 is 0
byte 3 is 8
byte 65 is 3
minimum 12, maximum 11
128 bytes
17 dots in lines of 2 bytes
lines of 3 bytes
lines of 258 bytes
4,001 lines
byte 128 is 192
a byte too few
a byte too many
a run without its value
DAMAGED

# The longest: 128 by 2,040 dots, each byte for itself and 0
{ head -c 8 across.pcx; printf '\177\000\367\007'; tail -c +13 across.pcx | head -c 54; printf '\020\000'; tail -c +69 across.pcx | head -c 60; head -c 32640 /dev/zero; } > "$work/longest"
alone "$work/longest" 608 12 0 0 '32,768 bytes'
echo '32,769 bytes: not legal'
