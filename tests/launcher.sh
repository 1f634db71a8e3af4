#!/bin/sh
# Tries the launcher on a small repository of its own, with a command rt that only notes what it was asked for.
# It takes about half a minute and is no part of the gate. Its last line says `all as wanted`.
set -eu

root=$(CDPATH='' cd -- "$(dirname -- "$0")/.." && pwd -P)
work=$(mktemp -d)
trap 'rm -rf "$work"' EXIT
mkdir -p "$work/repo/bin" "$work/tools" "$work/here"
cp "$root/bin/flash_cli" "$root/bin/flash_cli.table" "$work/repo/bin/"
printf 'low:\none: low\ntwo: low\nflash_cli: one two low\n' >"$work/repo/crates.txt"
for crate in low one two flash_cli; do
    mkdir -p "$work/repo/crates/$crate/src"
    echo "$crate" >"$work/repo/crates/$crate/src/lib.rt"
done
echo 'more' >"$work/repo/crates/low/src/more.rt"
echo 'kit-1' >"$work/kit"

# Notes the begin and the end of `lib` and `run` in a crate, and which crate began before one that it needs. In between it does
# what the file does-CRATE says. `run` builds a program that ends with the status that its first word names.
cat >"$work/tools/rt" <<SCRIPT
#!/bin/sh
[ \$1 != version ] || exec cat "$work/kit"
crate=\$(basename "\$PWD")
echo "begin \$crate" >>"$work/asked"
echo \$\$ >"$work/id-\$crate"
for need in \$(sed -n "s/^\$crate://p" ../../crates.txt); do
    grep -q "^end \$need\\\$" "$work/asked" || echo "\$crate before \$need" >>"$work/early"
done
[ ! -e "$work/does-\$crate" ] || . "$work/does-\$crate"
echo "end \$crate" >>"$work/asked"
[ \$1 = run ] || exit 0
mkdir -p out
printf '#!/bin/sh\necho "in \$(pwd)"\nexit "\${ENDS-\$1}"\n' >out/flash_cli
chmod +x out/flash_cli
echo 'usage: flash_cli choose'
exit 1
SCRIPT
# Notes that a checksum was asked for.
cat >"$work/tools/cksum" <<SCRIPT
#!/bin/sh
echo summed >>"$work/summed"
exec $(command -v cksum) "\$@"
SCRIPT
chmod +x "$work/tools/rt" "$work/tools/cksum"
PATH=$work/tools:$PATH
export PATH

wrong() {
    echo "$1" >&2
    exit 1
}

# launched NAME STATUS BUILDS ERROR: what the launcher ends with, how often it built, what standard error has.
launched() {
    name=$1 wanted=$2 builds=$3 error=$4
    shift 4
    : >"$work/asked"
    : >"$work/summed"
    rm -f "$work/early"
    status=0 since=$(date +%s)
    (cd "$work/here" && "$@") >"$work/stdout" 2>"$work/stderr" || status=$?
    [ "$status" = "$wanted" ] || wrong "$name: status $status, and not $wanted"
    [ "$(grep -c '^end flash_cli$' "$work/asked")" = "$builds" ] || wrong "$name: not built $builds times"
    [ -z "$error" ] || grep -q "$error" "$work/stderr" || wrong "$name: standard error has no '$error'"
    [ ! -e "$work/early" ] || wrong "$name: $(cat "$work/early")"
    case $wanted in
        70 | 130) ;;
        *) grep -q "^in $work/here\$" "$work/stdout" || wrong "$name: not run here" ;;
    esac
}

# does CRATE COMMANDS: what rt does in a crate from now on, and that this crate is to be built anew.
does() {
    echo "$2" >"$work/does-$1"
    echo "$2" >>"$work/repo/crates/$1/src/lib.rt"
}

# was_ended CRATE: that the command rt in a crate, which sleeps for a minute, is no more, and was not waited for.
was_ended() {
    [ $(($(date +%s) - since)) -lt 50 ] || wrong "$name: $1 went on"
    ! kill -0 "$(cat "$work/id-$1")" 2>/dev/null || wrong "$name: $1 goes on"
}

bin=$work/repo/bin/flash_cli
launched "the first run" 0 1 '^proving and building, crate 1 of 4: low$' "$bin" 0
launched "a second run" 0 0 '' "$bin" 0
[ ! -s "$work/summed" ] || wrong "$name: sources were summed though none had changed"
touch "$work/repo/crates/low/src/lib.rt"
launched "a touched source" 0 0 '' "$bin" 0
[ -s "$work/summed" ] || wrong "$name: it was not summed"
launched "after it" 0 0 '' "$bin" 0
[ ! -s "$work/summed" ] || wrong "$name: sources were summed though none had changed"
ln -s "$bin" "$work/link"
ln -s link "$work/chain"
launched "through a link to a link" 0 0 '' "$work/chain" 0
for row in '6 memory ran out' '7 the text could not be written'; do
    launched "status ${row%% *}" "${row%% *}" 0 "^flash_cli: ${row#* }\$" "$bin" "${row%% *}"
done
launched "a usage error" 1 0 '^flash_cli: wanted: flash_cli choose FLASH$' env ENDS=1 "$bin" choose
launched "a usage error with options" 1 0 'wanted: flash_cli sweep FLASH IMAGE SCRIPT .--tear N.$' env ENDS=1 "$bin" sweep a
launched "no command of that name" 1 0 'no command .chose.; .flash_cli --help. lists them$' env ENDS=1 "$bin" chose x
launched "no command" 1 0 'a command is missing; .flash_cli --help. lists them$' env ENDS=1 "$bin"

# What keeps a named file from being read or written. A user who may do everything is not kept by rights.
mkdir -p "$work/here/folder" "$work/here/closed"
: >"$work/here/there"
: >"$work/here/locked"
chmod 0 "$work/here/locked" "$work/here/closed"
for row in 'boot folder out|FLASH folder is a folder' 'boot there folder|OUT folder is a folder' \
    'boot there none/out|OUT none/out has no folder: there is no none' \
    'flash-make there there 1 folder|OUT folder is a folder' \
    'sweep there folder there|IMAGE folder is a folder' 'boot there out|the folder does not show why' \
    'boot locked out|FLASH locked is not readable for this user' \
    'boot there closed/out|OUT closed/out is in a folder where this user may not write: closed'; do
    case $row in *'for this user' | *'this user may'*) [ "$(id -u)" != 0 ] || continue ;; esac
    # (the words before the bar are split)
    launched "$row" 3 0 "^flash_cli: ${row#*|}" env ENDS=3 "$bin" ${row%|*}
    grep -q '^flash_cli: a file could not be read or written$' "$work/stderr" || wrong "$name: it is not told"
done
chmod 700 "$work/here/closed"
launched "a refusal" 2 0 '' "$bin" 2
[ ! -s "$work/stderr" ] || wrong "a refusal is told twice"
rm "$work/repo/crates/low/src/more.rt"
launched "a deleted source" 0 1 '^proved and built, 4 of 4: flash_cli, [0-9]* s$' "$bin" 0
echo 'four' >"$work/repo/crates/low/src/lib.rt"
touch -d '2001-01-01' "$work/repo/crates/low/src/lib.rt"
launched "a changed source that is older" 0 1 '' "$bin" 0
echo 'kit-2' >"$work/kit"
launched "a new kit" 0 1 '' "$bin" 0
launched "after it" 0 0 '' "$bin" 0

# Each of the two crates waits until the other one has begun.
for row in 'one two' 'two one'; do
    does "${row% *}" "for _ in 1 2 3 4 5 6 7 8 9; do
        ! grep -q '^begin ${row#* }\$' '$work/asked' || break
        sleep 1
    done
    grep -q '^begin ${row#* }\$' '$work/asked' || exit 1"
done
launched "two crates side by side" 0 1 '' env FLASH_CLI_JOBS=2 "$bin" 0
does one ''
does two ''
launched "one crate at a time" 0 1 '' env FLASH_CLI_JOBS=1 "$bin" 0
wanted=$(for crate in low one two flash_cli; do printf 'begin %s\nend %s\n' "$crate" "$crate"; done)
[ "$(cat "$work/asked")" = "$wanted" ] || wrong "one crate at a time: not in turn"

does one "until grep -q '^begin two\$' '$work/asked'; do sleep 1; done; echo 'a goal is left'; exit 1"
does two 'exec sleep 60'
launched "a crate that is not proved" 70 0 '^flash_cli: one was not proved' env FLASH_CLI_JOBS=2 "$bin" 0
grep -q '^a goal is left$' "$work/stderr" || wrong "$name: its log is not shown"
was_ended two
for signal in INT TERM; do
    does one "until grep -q '^begin two\$' '$work/asked'; do sleep 1; done; kill -$signal \$PPID; exec sleep 60"
    launched "an interrupt by $signal" 130 0 '' env FLASH_CLI_JOBS=2 "$bin" 0
    was_ended one
    was_ended two
done
does one ''
does two ''
launched "no number of crates" 70 0 '^flash_cli: FLASH_CLI_JOBS ' env FLASH_CLI_JOBS=no "$bin" 0
launched "after an interrupt" 0 1 '' "$bin" 0

# answered STATUS TEXT WORDS: what the launcher answers itself, though nothing is built.
answered() {
    wanted=$1 text=$2
    shift 2
    : >"$work/asked"
    status=0
    "$bin" "$@" >"$work/stdout" 2>&1 || status=$?
    [ "$status" = "$wanted" ] || wrong "$*: status $status, and not $wanted"
    grep -q -e "$text" "$work/stdout" || wrong "$*: no line '$text'"
    [ ! -s "$work/asked" ] || wrong "$*: something was built"
}
rm "$work/repo/crates/flash_cli/out/flash_cli"
for words in --help -h help; do
    answered 0 '^  flash-make TABLE APP SIZE OUT  ' "$words"
done
answered 0 '^usage: flash_cli sweep FLASH IMAGE SCRIPT .--tear N.$' help sweep
answered 0 '^  OUT .*(written)$' help boot
answered 1 'no command .nope.' help nope
answered 0 '^proved with kit-2$' --version

# The table has the commands of the program, in its order, with as many operands and the same options, and the pages
# are made of it.
python3 - "$root" <<'SCRIPT' || wrong "the table has other commands than the program"
import re
import sys

with open(sys.argv[1] + "/crates/flash_cli/src/command.rt", encoding="utf-8") as file:
    code = file.read().split("fn table()")[1].split("/// A command that")[0]
row = r'Row::plain\(Kind::\w+, "([a-z-]+)", (\d)\)|word: "([a-z-]+)",\s+names: (\d),\s+options: &\[([^]]*)\]'
program = [(a or b, int(m or n), sorted(re.findall(r'"(.*?)"', options))) for a, m, b, n, options in re.findall(row, code)]
table = []
with open(sys.argv[1] + "/bin/flash_cli.table", encoding="utf-8") as file:
    for kind, name, *_ in (line.split("\t") for line in file if not line.startswith("#")):
        if kind == "command":
            table.append((name, 0, []))
        elif kind == "option":
            table[-1][2].append(name.split()[0])
        elif kind != "status":
            table[-1] = (table[-1][0], table[-1][1] + 1, table[-1][2])
assert program == [(name, count, sorted(options)) for name, count, options in table], (program, table)
SCRIPT
mkdir "$work/pages"
cp -r "$root/docs" "$root/bin" "$work/pages"
"$work/pages/docs/make-help"
for page in flash_cli.1 flash_cli.bash; do
    cmp -s "$root/docs/$page" "$work/pages/docs/$page" || wrong "docs/$page is not what docs/make-help makes"
done

cp "$work/repo/crates.txt" "$work/crates.txt"
printf 'one: two\ntwo: one\nflash_cli: one\n' >"$work/repo/crates.txt"
launched "crates in a ring" 70 0 '^flash_cli: ' "$bin" 0
rm "$work/repo/crates.txt"
launched "no list of crates" 70 0 '^flash_cli: ' "$bin" 0
echo 'all as wanted'
