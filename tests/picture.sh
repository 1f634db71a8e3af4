#!/bin/sh
# Tries bin/flash_picture with a program that prints fixed texts, and on texts that are none of a sweep.
# It takes some seconds and is no part of the gate. Its last line says `all as wanted`.
set -eu

root=$(CDPATH='' cd -- "$(dirname -- "$0")/.." && pwd -P)
work=$(mktemp -d)
trap 'rm -rf "$work"' EXIT
mkdir "$work/bin"
cp "$root/bin/flash_picture" "$work/bin/"
cd "$work"

wrong() {
    echo "$1" >&2
    exit 1
}

# prints CHOOSE STATUS: what the program prints for `choose`, and its status.
prints() {
    cat >bin/flash_cli <<PROGRAM
#!/bin/sh
[ \$1 != table-show ] || exec printf 'nvs 1 0x02 0x00009000 0x00004000 0x00000000\notadata 1 0x00 0x0000D000 0x00002000 0x00000000\na<b&c 0 0x00 0x00010000 0x00050000 0x00000000\nota_0 0 0x10 0x00060000 0x00050000 0x00000001\n'
printf '$1'
exit $2
PROGRAM
    chmod +x bin/flash_cli
}

# drawn TEXT WORDS: that the picture is well-formed, and has this text.
drawn() {
    wanted=$1
    shift
    bin/flash_picture "$@" >picture.svg || wrong "$*: status $?"
    python3 -c 'import sys, xml.dom.minidom; xml.dom.minidom.parse(sys.argv[1])' picture.svg || wrong "$*: no XML"
    grep -qF "$wanted" picture.svg || wrong "$*: there is no '$wanted'"
}

# refused TEXT WORDS: status 2 and a message with this text, and no picture.
refused() {
    wanted=$1 status=0
    shift
    bin/flash_picture "$@" >picture.svg 2>message || status=$?
    [ "$status" = 2 ] || wrong "$*: status $status"
    grep -qF "flash_picture: $wanted" message || wrong "$*: the message is '$(cat message)'"
    [ ! -s picture.svg ] || wrong "$*: there is a picture"
}

dd if=/dev/zero of=flash.bin bs=65536 count=16 2>/dev/null
prints 'entry 0 seq 1 state VALID valid\nentry 1 seq 4294967295 state FFFFFFFF invalid\nnames ota_0\nboots factory 80\n' 0
drawn 'a&lt;b&amp;c' map flash.bin
drawn '>named by the OTA data<' map flash.bin
drawn '>boots<' map flash.bin
drawn 'OTA entry 1 seq 4294967295' map flash.bin
prints 'refused: no application\n' 2
drawn 'nothing boots' map flash.bin
prints 'refused: table magic row 0\n' 2
refused 'refused: table magic row 0' map flash.bin
refused 'no.bin: No such file' map no.bin
refused 'usage: ' map
refused 'usage: '

printf 'steps 3\ncut 1 boots factory 80\ncut 2 boots ota_0 80\ncut 3 boots ota_1 80\n' >tear-0.txt
drawn 'step 3: ota_1' sweep tear-0.txt
grep -qF 'fill="#bb2222"><title>step 3: ota_1' picture.svg || wrong "an application that is neither old nor new is not shown so"
printf 'a.bin\t0\tsteps 1\na.bin\t0\tcut 1 boots factory 80\na.bin\t1\tsteps 1\na.bin\t1\tcut 1 boots factory 80\n' >joined.txt
drawn 'a.bin 1' sweep tear-0.txt joined.txt
awk 'BEGIN { print "steps 5000"; for (k = 1; k <= 5000; k++) print "cut", k, "boots factory 80" }' >long.txt
drawn 'steps 1 to 5000: factory' sweep long.txt
printf 'steps 3\ncut 1 boots factory 80\n' >short.txt
refused 'short.txt: short has 3 steps and 1 lines of cuts' sweep short.txt
printf 'refused: sweep limit 1 2\n' >refused.txt
refused "refused.txt: line 1 is none of a sweep: 'refused: sweep limit 1 2'" sweep refused.txt
printf 'steps 2\ncut 2 boots factory 80\n' >order.txt
refused "order.txt: line 2 is none of a sweep" sweep order.txt
: >empty.txt
refused 'empty.txt: there is no sweep in it' sweep empty.txt
printf '\377\n' >bytes.txt
refused 'bytes.txt: it is no text' sweep bytes.txt
refused 'no.txt: No such file' sweep no.txt
echo 'all as wanted'
