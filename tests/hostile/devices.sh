#!/usr/bin/env bash
# Images on block devices: loop devices that are longer than their images. Each command says there what it says over files, and leaves the same
# bytes; a second process is refused from another folder too; a device that is shorter, or gone, is told by name. Format makes images of devices
# that have one or are blank, and leaves every byte of others. What may only be read is read, where nothing has to be written; else it is told what
# has to be. What a device that runs full has lost isn't read by the process that waited for it.
# Then kills.py kills the program over such devices, and compares what each has with what it may have.
#
#   tests/hostile/devices.sh [PROGRAM [WORD..]]      the program, and words to put before each command's (default: build/wol)
#
# It prints a line for each test that fails, and how many passed. It ends with 1 if any failed. It needs root, losetup and flock: elsewhere it is
# skipped, which is said.
set -u
cd "$(dirname "$0")/../.." || exit 1
top=$PWD
program=("$@")
[ $# -gt 0 ] || program=("$top/build/wol")
case ${program[0]} in
*/*) program[0]=$(realpath "${program[0]}") ;;
esac
room=$(mktemp -d)
devices=()
leave() {
    local device
    for device in "${devices[@]}"; do losetup -d "$device" 2>/dev/null; done
    for mounted in memory closed; do ! mountpoint -q "$room/$mounted" || umount "$room/$mounted"; done
    rm -rf "$room"
}
trap leave EXIT
passed=0
failed=0

skip() {
    echo "devices: skipped: $*"
    exit 0
}

if [ "$(id -u)" != 0 ] || ! command -v losetup >/dev/null || ! command -v flock >/dev/null; then skip "loop devices need root, losetup and flock"; fi
truncate -s 4096 "$room/probe"
probe=$(losetup -f --show "$room/probe" 2>/dev/null) || skip "there is no loop device to be had"
losetup -d "$probe"

expect() { # WHAT WANTED FOUND
    if [ "$2" = "$3" ]; then
        passed=$((passed + 1))
    else
        failed=$((failed + 1))
        echo "FAIL $1: wanted $(printf '%q' "$2"), found $(printf '%q' "$3")"
    fi
}

# Runs a command in a folder: all that it prints, and its status.
said() { # FOLDER WORD..
    local at=$1 status
    shift
    (cd "$at" && timeout 60 "${program[@]}" "$@" 2>/dev/null)
    status=$?
    echo "status $status"
}

# Two folders with the same images, with records in logs: `files`, and `links` to devices whose files lie in `disks`, each longer by 5,000 blocks.
mkdir "$room/files" "$room/links" "$room/disks" "$room/second"
cp samples/wol.toml "$room/files"
said "$room/files" format >/dev/null
said "$room/files" replay --reclaim off <samples/offload.csv >/dev/null
for folder in links second; do cp "$room/files/wol.toml" "$room/$folder"; done
volumes=(usr0 web0 src0)
for name in "${volumes[@]}"; do
    cp "$room/files/$name.vol" "$room/disks/$name"
    dd if=/dev/zero bs=512 count=5000 2>/dev/null | tr '\0' '\377' >>"$room/disks/$name"
    device=$(losetup -f --show "$room/disks/$name") || skip "there are no more loop devices to be had"
    devices+=("$device")
    ln -s "$device" "$room/links/$name.vol"
done
ln -s "${devices[0]}" "$room/second/usr0.vol"

# What the devices have: the images, and behind each its rest, which nobody writes.
same_bytes() { # WHAT
    local name size
    sync
    for name in "${volumes[@]}"; do
        size=$(stat -c %s "$room/files/$name.vol")
        expect "bytes of $name after $1" "$(sha256sum <"$room/files/$name.vol")" "$(head -c "$size" "$room/disks/$name" | sha256sum)"
        expect "the rest of $name after $1" 0 "$(tail -c "+$((size + 1))" "$room/disks/$name" | tr -d '\377' | wc -c)"
    done
}

while read -r command; do
    read -ra words <<<"$command"
    for folder in files links; do
        said "$room/$folder" "${words[@]}" <samples/offload.csv >"$room/out.$folder"
    done
    expect "what $command says" "$(cat "$room/out.files")" "$(cat "$room/out.links")"
    same_bytes "$command"
done <<'COMMANDS'
check
dump
replay --each --workers 4 --reclaim off
replay --reclaim between
clean
view-remove usr0 web0
view-add usr0 web0
soak 7 200
check
COMMANDS

# A device that another process has open is refused from another folder too.
mkfifo "$room/lines"
(cd "$room/links" && exec timeout 60 "${program[@]}" replay <"$room/lines" >/dev/null 2>&1) &
exec 3>"$room/lines"
head -n 4 samples/offload.csv >&3
for _ in $(seq 100); do
    flock -n "${devices[0]}" true 2>/dev/null || break
    sleep 0.05
done
expect "check beside another process" "usr0 disk bay" "$(said "$room/second" check | head -n 1)"
exec 3>&-
wait

# Format makes devices that have images new ones, and leaves what lies behind.
for folder in files links; do said "$room/$folder" format >"$room/out.$folder"; done
expect "what format says" "$(cat "$room/out.files")" "$(cat "$room/out.links")"
same_bytes format

# A device for usr0 alone, and what format makes of it: one of 2 MiB.
sed '/^\[\[volume/,$d' samples/wol.toml >"$room/second/wol.toml"
cat >>"$room/second/wol.toml" <<'C'
[[volume]]
name = "usr0"
host = "usr"
disk = 0
home_blocks = 2500
segments = 1
view = []
C
truncate -s 2M "$room/disks/one"
device=$(losetup -f --show "$room/disks/one") || skip "there are no more loop devices to be had"
devices+=("$device")
ln -sfn "$device" "$room/second/usr0.vol"
if command -v mkfs.ext4 >/dev/null; then
    mkfs.ext4 -q "$device"
    sync
    before=$(sha256sum <"$room/disks/one")
    expect "format of a device with a file system" $'fault 4 usr0 disk bay\nstatus 4' "$(said "$room/second" format)"
    sync
    expect "that device" "$before" "$(sha256sum <"$room/disks/one")"
fi
for place in 0 512 1000000 1048575; do
    dd if=/dev/zero of="$device" bs=1M count=2 conv=fsync 2>/dev/null
    printf x | dd of="$device" bs=1 seek="$place" conv=fsync,notrunc 2>/dev/null
    before=$(sha256sum <"$room/disks/one")
    expect "format of a device with a byte at $place" $'fault 4 usr0 disk bay\nstatus 4' "$(said "$room/second" format)"
    sync
    expect "the device with a byte at $place" "$before" "$(sha256sum <"$room/disks/one")"
done
dd if=/dev/zero of="$device" bs=1M count=1 conv=fsync 2>/dev/null
dd if=/dev/urandom of="$device" bs=1M seek=1 count=1 conv=fsync 2>/dev/null
expect "format of a device that is blank in its first MiB" $'format usr0 blocks 2566\nstatus 0' "$(said "$room/second" format)"
expect "check of it" "status 0" "$(said "$room/second" check | tail -n 1)"
cp "$room/second/wol.toml" "$room/disks/wol.toml"
said "$room/disks" format >/dev/null
expect "that image" "$(sha256sum <"$room/disks/usr0.vol")" "$(head -c "$(stat -c %s "$room/disks/usr0.vol")" "$device" | sha256sum)"
# What a stop leaves that came behind the first writes of a format has no label, and is formatted again.
for front in WOLVOL01 "$(printf '%512s' '' | tr ' ' '\001')WOLVIEW1"; do
    printf '%s' "$front" | tr '\001' '\000' | cat - /dev/zero | head -c 1024 | dd of="$device" conv=fsync,notrunc 2>/dev/null
    expect "check of a format that was stopped" "usr0 damaged 0 of usr0" "$(said "$room/second" check | head -n 1)"
    expect "format behind it" $'format usr0 blocks 2566\nstatus 0' "$(said "$room/second" format)"
done
truncate -s 51200 "$room/short"
device=$(losetup -f --show "$room/short")
devices+=("$device")
ln -sfn "$device" "$room/second/usr0.vol"
expect "check of a device that is too short" "usr0 length 51200" "$(said "$room/second" check | head -n 1)"
expect "format of it" "fault 4 usr0 disk bay" "$(said "$room/second" format | head -n 1)"
ln -sfn /dev/none-such "$room/second/usr0.vol"
expect "check of a device that is gone" "usr0 absent" "$(said "$room/second" check | head -n 1)"

# Images that may only be read, with records in logs: by devices, in a file system, and without the right to write. Then one with a segment that
# opening has to free: the head of an owned one, without a record.
mkdir "$room/open" "$room/closed" "$room/look"
cp samples/wol.toml "$room/open"
said "$room/open" format >/dev/null
said "$room/open" replay --reclaim off <samples/offload.csv >/dev/null
cp samples/wol.toml "$room/look"
looks() { # WHAT FOLDER WANTED
    for command in check dump; do
        expect "$command of $1" "$(cat "$room/open/$command")" "$(said "$2" $command)"
    done
}
mount -t tmpfs -o size=64m tmpfs "$room/closed" && mountpoint -q "$room/closed" || skip "there is no file system of memory to be had"
for what in "sound images" "images with a segment to be freed"; do
    for command in check dump; do said "$room/open" $command >"$room/open/$command"; done
    if [ "$what" != "sound images" ]; then
        said "$room/open" format >/dev/null
        for command in check dump; do said "$room/open" $command | sed 's/^web0 .*/web0 disk segment 0 of usr0/;s/^status 0/status 4/' >"$room/open/$command"; done
        printf 'WOLSEGO1\1\0\0\0' | dd of="$room/open/usr0.vol" bs=512 seek=2050 conv=fsync,notrunc 2>/dev/null
    fi
    for name in "${volumes[@]}"; do
        device=$(losetup -r -f --show "$room/open/$name.vol") || skip "there are no more loop devices to be had"
        devices+=("$device")
        ln -sfn "$device" "$room/look/$name.vol"
    done
    looks "$what by read-only devices" "$room/look"
    mount -o remount,rw "$room/closed"
    cp "$room"/open/*.vol "$room/open/wol.toml" "$room/closed"
    mount -o remount,ro "$room/closed"
    before=$(sha256sum "$room"/closed/*)
    looks "$what in a read-only file system" "$room/closed"
    expect "replay of $what in a read-only file system" $'fault 4 usr0 disk bay\nstatus 4' "$(said "$room/closed" replay </dev/null)"
    if command -v setpriv >/dev/null; then
        chmod 755 "$room" "$room/open"
        chmod 444 "$room"/open/*
        nobody=(setpriv --reuid 65534 --regid 65534 --clear-groups)
        own=("${program[@]}")
        program=("${nobody[@]}" "${own[@]}")
        if [ "$(said "$room/open" help | tail -n 1)" != "status 126" ]; then looks "$what without the right to write" "$room/open"; fi
        program=("${own[@]}")
        chmod 644 "$room"/open/*
    fi
    expect "those images after $what" "$before" "$(sha256sum "$room"/closed/*)"
done
said "$room/open" check >"$room/open/check"
expect "check of it with the right to write" "web0 ok" "$(sed -n 's/^\(web0 ok\).*/\1/p' "$room/open/check")"

# A run whose write the device can't take ends with 4. What it lost is not what the process reads that waited for it.
mkdir "$room/memory" "$room/full"
if mount -t tmpfs -o size=8m tmpfs "$room/memory" 2>/dev/null && mountpoint -q "$room/memory"; then
    truncate -s 16M "$room/memory/disk"
    device=$(losetup -f --show "$room/memory/disk") || skip "there are no more loop devices to be had"
    devices+=("$device")
    cp "$room/second/wol.toml" "$room/full"
    ln -s "$device" "$room/full/usr0.vol"
    expect "format of a blank device" "status 0" "$(said "$room/full" format | tail -n 1)"
    (cd "$room/full" && exec timeout 60 "${program[@]}" replay --reclaim off <"$room/lines" >"$room/out.full" 2>/dev/null) &
    first=$!
    exec 3>"$room/lines"
    printf '128166372000000000,usr,0,Read,0,512,1\n' >&3
    for _ in $(seq 100); do
        flock -n "$device" true 2>/dev/null || break
        sleep 0.05
    done
    # flags, the export's name, a READ of block 2,000, and a DISC
    printf '\0\0\0\3IHAVEOPT\0\0\0\1\0\0\0\4usr0\45\140\225\23\0\0\0\0\0\0\0\0\0\0\0\1\0\0\0\0\0\17\240\0\0\0\2\0' >"$room/client"
    printf '\45\140\225\23\0\0\0\2\0\0\0\0\0\0\0\2\0\0\0\0\0\0\0\0\0\0\0\0' >>"$room/client"
    (cd "$room/full" && exec timeout 60 "${program[@]}" serve --wait 30 usr0 <"$room/client" >"$room/served" 2>/dev/null 3>&-) &
    second=$!
    sleep 0.5
    dd if=/dev/zero of="$room/memory/fill" bs=4k count=4096 2>/dev/null
    printf '128166372000000001,usr,0,Write,1024000,512,1\n' >&3
    exec 3>&-
    wait "$first"
    expect "a run that the device refuses" "4 fault 4 usr0 disk home" "$? $(tail -n 1 "$room/out.full")"
    wait "$second"
    expect "the session behind it" "0 556" "$? $(stat -c %s "$room/served")"
    expect "what it reads of what was lost" 0 "$(tail -c 512 "$room/served" | tr -d '\0' | wc -c)"
else
    echo "devices: skipped: a device that runs full needs a file system of memory"
fi

for device in "${devices[@]}"; do losetup -d "$device" 2>/dev/null; done
python3 tests/hostile/kills.py "${program[0]}" --kills "${KILLS:-100}" --devices --folder "$room" || failed=$((failed + 1))

echo "devices: $passed passed, $failed failed"
[ "$failed" -eq 0 ]
