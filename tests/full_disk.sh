#!/bin/sh
# A file that can't be put stands as it was: on a file system that is full, and in a folder without the right to write.
# Needs root, for a small file system in memory and another user. Takes the built program.
set -eu
LC_ALL=C
export LC_ALL

program=$1
source=$(CDPATH='' cd -- "$(dirname -- "$0")/../samples" && pwd)/two_slots.csv
folder=$(mktemp -d)
trap 'umount "$folder/full" 2>/dev/null || :; rm -rf "$folder"' EXIT

wanted() {
    [ "$2" = "$3" ] || { printf '%s: wanted %s, got %s\n' "$1" "$2" "$3" >&2; exit 1; }
}

# A table takes 3,072 bytes, and one page of 4,096 is left less than that.
mkdir "$folder/full"
mount -t tmpfs -o size=16k tmpfs "$folder/full"
cd "$folder/full"
cp "$source" t.csv
printf old >T
dd if=/dev/zero of=filler bs=4096 count=4 2>/dev/null || :
status=0
"$program" table-make t.csv T >text || status=$?
wanted "the status on a full file system" 3 "$status"
wanted "the file on a full file system" old "$(cat T)"
wanted "the files on a full file system" "T filler t.csv" "$(ls -A | grep -v '^text$' | tr '\n' ' ' | sed 's/ $//')"
cd /
umount "$folder/full"

# A folder that another user may read and not write.
mkdir "$folder/read"
cp "$source" "$folder/read/t.csv"
printf old >"$folder/read/T"
chmod 755 "$folder" "$folder/read"
chmod 644 "$folder/read/T"
cp "$program" "$folder/flash_cli"
cd "$folder/read"
status=0
setpriv --reuid=65534 --regid=65534 --clear-groups "$folder/flash_cli" table-make t.csv T >/dev/null || status=$?
wanted "the status without the right to write" 3 "$status"
wanted "the file without the right to write" old "$(cat T)"
wanted "the files without the right to write" "T t.csv" "$(ls -A | tr '\n' ' ' | sed 's/ $//')"
echo "all as wanted"
