#!/bin/sh
# The built programs, as a user meets them: words, streams, files, sockets and processes that are killed.
#
# usage: test/programs.sh UDFBURN UDFBURND
# Its last line is 'programs: N passed, M failed'. It takes a POSIX shell and the tools of a base system.
set -u

suite=programs
# shellcheck source=test/shell.sh
. "$(dirname "$0")/shell.sh"
udfburn=$(absolute "$1")
udfburnd=$(absolute "$2")
room=$(mktemp -d) || exit 1
daemon=
client=

# Ends what is still running, and removes what was made.
clean() {
    for process in $client $daemon; do
        kill -9 "$process" 2> kill.errors
    done
    cd /
    rm -rf "$room"
}
trap clean EXIT
trap 'exit 1' HUP INT PIPE TERM
# A socket's path is short, so it is named from here.
cd "$room" || exit 1

image=disc.img
socket=disc.socket
: > none

# run WORD..: runs udfburn on these words. Its input is the file that `input` names.
input=none
run() {
    status=0
    "$udfburn" "$@" < "$input" > output 2> errors || status=$?
}

# told NAME STATUS OUTPUT ERRORS: whether the last run printed this, where OUTPUT and ERRORS are formats of printf.
told() {
    printf "$3" > output.wanted
    printf "$4" > errors.wanted
    if [ "$status" -eq "$2" ] && cmp output output.wanted && cmp errors errors.wanted; then
        pass
        return
    fi
    fail "$1: status $status"
    od -c output
    od -c errors
}

# holds NAME COMMAND..: whether the command succeeds.
holds() {
    name=$1
    shift
    if "$@"; then pass; else fail "$name"; fi
}

# blocks FILE COUNT: whether the file is there and has so many blocks of 2,048 bytes, and nothing more.
blocks() {
    [ -f "$1" ] && [ "$(($(wc -c < "$1")))" -eq $(($2 * 2048)) ]
}

# await COMMAND..: waits until the command succeeds, for longer than any machine takes. It gives up if the daemon has ended.
await() {
    tries=3000
    until "$@"; do
        tries=$((tries - 1))
        if [ "$tries" -eq 0 ] || ! kill -0 "$daemon" 2> kill.errors; then return 1; fi
        sleep 0.1
    done
}

# connects: whether the daemon takes a connection, on which nothing is sent.
connects() {
    "$udfburn" send "$socket" < none > connected 2>&1
}

# start WORD..: starts the daemon on these words, which name the socket.
start() {
    "$udfburnd" "$@" 2> daemon.errors &
    daemon=$!
    # The path is there a moment before connections are taken.
    holds 'the daemon listens' await connects
}

# serve WORD..: starts the daemon on the image and the socket, with these words after them.
serve() {
    start "$image" "$socket" "$@"
}

# limit: waits until the file `has_ended` is there, for longer than any machine takes, and kills the daemon if it does not come.
limit() {
    tries=3000
    until [ -e has_ended ]; do
        tries=$((tries - 1))
        if [ "$tries" -eq 0 ]; then
            kill -9 "$daemon"
            return
        fi
        sleep 0.1
    done
}

# ended NAME: whether the daemon ends by itself with status 0 and without a line, and leaves the socket, which is removed here.
# One that does not end is killed.
ended() {
    limit 2> kill.errors &
    watch=$!
    status=0
    wait "$daemon" || status=$?
    daemon=
    : > has_ended
    wait "$watch"
    rm has_ended
    : > output
    cp daemon.errors errors
    told "$1" 0 '' ''
    holds 'the socket stays' [ -S "$socket" ]
    rm -f "$socket"
}

# no_command WORD..: whether udfburn takes these words for those of no command.
no_command() {
    run "$@"
    told "no command: udfburn $*" 2 '' 'udfburn: usage\n'
}

# no_daemon WORD..: the same of udfburnd.
no_daemon() {
    status=0
    "$udfburnd" "$@" > output 2> errors || status=$?
    told "no daemon: udfburnd $*" 2 '' 'udfburnd: usage\n'
}

# bytes_are NAME FILE BLOCK OFFSET DIGITS: whether a block has these bytes, two digits each, from an offset on.
bytes_are() {
    dd if="$2" bs=1 skip=$(($3 * 2048 + $4)) count=$((${#5} / 2)) 2> dd.errors | od -An -v -tx1 | tr -d ' \n' > digits
    holds "$1" [ "$(cat digits)" = "$5" ]
}

# crash: kills the daemon, and removes the socket's path as its supervisor does.
crash() {
    kill -9 "$daemon"
    wait "$daemon" 2> wait.errors
    daemon=
    rm -f "$socket"
}

# flip FILE OFFSET OCTAL: writes another byte.
flip() {
    printf "\\$3" | dd of="$1" bs=1 seek="$2" conv=notrunc 2> dd.errors
}

# cut_to FILE BYTES: a copy of the image's first bytes.
cut_to() {
    dd if="$image" of="$1" bs=1024 count=$(($2 / 1024)) 2> dd.errors
}

# Client 7 creates `/a` with the bytes `hello` as its request number 1, and makes `/d` as its number 2.
zeros='\000\000\000\000\000\000\000'
create="\046\000\000\000\001\007$zeros\001$zeros\000$zeros\001\001\000a\005\000\000\000hello"
make="\035\000\000\000\003\007$zeros\002$zeros\000$zeros\001\001\000d"
first='\006\000\000\000\000\000\001\000\000\000'
second='\006\000\000\000\000\000\002\000\000\000'
printf "$create" > create
printf "$make" > make_directory
printf "$create$make" > both
printf "$create\\000\\000\\000\\200$make" > long
printf '\046\000\000\000\001\007' > part
# Client 7 creates `/a` with 300 blocks of zeros.
printf "\\041\\140\\011\\000\\001\\007$zeros\\001$zeros\\000$zeros\\001\\001\\000a\\000\\140\\011\\000" > large
dd if=/dev/zero bs=2048 count=300 2> dd.errors >> large

# Words.
run
told 'no words' 2 '' 'udfburn: usage\n'
run apply mem:511
told 'too small a volume' 2 '' 'udfburn: usage\n'
run format "$image" DISC 0 450001
told 'too large a volume' 2 '' 'udfburn: usage\n'
holds 'usage makes no image' [ ! -e "$image" ]
no_command apply
no_command apply i j
no_command Apply i
no_command apply mem:
no_command apply mem:450001
no_command apply mem:+512
no_command apply 'mem: 512'
no_command apply mem:18446744073709552128
no_command format i DISC 4102444800000000 512
no_command format i DISC 0 511
no_command format i DISC '' 512
no_command format i DISC 0
no_command ls i
no_command get i / /
no_command log
no_command check i 0
no_command send
no_daemon
no_daemon i
no_daemon i s t
no_daemon i s --connections
no_daemon i s --connections 1000001
no_daemon i s --connections +1
no_daemon i s --connections 1 --connections 1
no_daemon --help
no_daemon i s --version
holds 'neither makes an image' [ ! -e i ]
status=0
"$udfburnd" "$image" "$socket" > output 2> errors || status=$?
told 'a daemon without an image' 1 '' 'udfburnd: 64 Device\n'
run ls "$image" nowhere
told 'a path before the image' 1 '' 'udfburn: 55 Path\n'
run get "$image" nowhere
told 'a path of a file before the image' 1 '' 'udfburn: 55 Path\n'
run ls "$image" /
told 'no image' 1 '' 'udfburn: 64 Device\n'
run send "$socket"
told 'no daemon' 1 '' 'udfburn: 94 Socket\n'

# A volume in memory.
input=create
run apply mem:3000
told 'the first request' 0 "$first" ''
input=long
run apply mem:3000
told 'a length too long' 0 "$first"'\004\000\000\000\046\000\063\000' ''
input=part
run apply mem:3000
told 'a frame that ends early' 0 '' ''
input=large
run apply mem:512
told 'the least volume has no room for 300 blocks' 0 '\002\000\000\000\043\000' ''
for capacity in 3000 003000 450000; do
    run apply "mem:$capacity"
    told "300 blocks in a volume of $capacity" 0 "$first" ''
done

# A new image.
input=none
run format "$image" DISC 0 3000
told 'format' 0 'formatted\n' ''
holds 'a new volume has 262 blocks' blocks "$image" 262
# The label and the moment are in the primary volume descriptor, at 24 and 376 (ECMA-167 3/10.1). How long the partition is, which
# begins at block 257, is in its descriptor at 192 (3/10.5).
bytes_are 'the label DISC' "$image" 32 24 0844495343
bytes_are 'the moment 0' "$image" 32 376 0010b2070101000000000000
bytes_are 'the capacity 3000' "$image" 34 192 b70a0000
run format least.img TAPE 86400000000 512
told 'the least volume' 0 'formatted\n' ''
bytes_are 'the label TAPE' least.img 32 24 0854415045
bytes_are 'the second day' least.img 32 376 0010b2070102000000000000
bytes_are 'the least capacity' least.img 34 192 ff000000
run format greatest.img DISC 4102444799999999 450000
told 'the last moment and the greatest volume' 0 'formatted\n' ''
bytes_are 'the last moment' greatest.img 32 376 001033080c1f173b3b636363
bytes_are 'the greatest capacity' greatest.img 34 192 cfdc0600
run format "$image" DISC 0 3000
told 'format again' 0 'formatted\n' ''
run format "$image" DISK 0 3000
told 'format otherwise' 1 '' 'udfburn: 61 NotBlank\n'
run ls "$image" /
told 'an empty root' 0 '' ''
: > empty.img
run ls empty.img /
told 'an empty image' 1 '' 'udfburn: 66 NotFormatted\n'

# A request over the socket, and a daemon that is killed after it.
serve
input=create
run send "$socket"
told 'a request over the socket' 0 "$first" ''
holds 'the request takes 5 blocks' blocks "$image" 267
run send "$socket"
told 'its repeat' 0 "$first" ''
kill -9 "$daemon"
wait "$daemon" 2> wait.errors
daemon=
status=0
"$udfburnd" "$image" "$socket" > output 2> errors || status=$?
told 'a path that an earlier daemon left' 1 '' 'udfburnd: 94 Socket\n'
rm -f "$socket"
cp "$image" before.img
serve
run send "$socket"
told 'the repeat after the crash' 0 "$first" ''
holds 'the repeat writes nothing' cmp "$image" before.img
crash
input=none
run get "$image" /a
told 'the file' 0 'hello' ''
run ls "$image" /
told 'the root' 0 'f a\n' ''
cp "$image" mem:9
run ls mem:9 /
told 'an image by this name' 0 'f a\n' ''
run get "$image" /
told 'a directory is no file' 1 '' 'udfburn: 97 IsDirectory\n'
run ls "$image" /a
told 'a file is no directory' 1 '' 'udfburn: 98 NotDirectory\n'
run get "$image" /b
told 'nothing is there' 1 '' 'udfburn: 96 NotFound\n'
run log "$image"
told 'the commits' 0 '1 266 1 1\n0 261 0 1\n' ''
run check "$image"
told 'the state after each commit' 0 'sound 1\n' ''

# A daemon that is killed between the frames of a connection: its client sent the second, and a part of a third.
mkfifo frames
serve
"$udfburn" send "$socket" < frames > client.output 2> client.errors &
client=$!
exec 3> frames
cat both part >&3
holds 'the second request takes 6 blocks' await blocks "$image" 273
crash
exec 3>&-
wait "$client"
client=
serve
input=both
run send "$socket"
told 'both requests after the crash' 0 "$first$second" ''
holds 'both were done once' blocks "$image" 273

# A client that is killed is a line of the daemon, which serves the next one.
"$udfburn" send "$socket" < frames > client.output 2> client.errors &
client=$!
exec 3> frames
printf "\\035\\000\\000\\000\\003\\007$zeros\\003$zeros\\000$zeros\\001\\001\\000e" >&3
holds 'the third request takes 6 blocks' await blocks "$image" 279
kill -9 "$client"
wait "$client" 2> wait.errors
client=
exec 3>&-
input=make_directory
run send "$socket"
told 'the next client' 0 "$second" ''
line=$(cat daemon.errors)
case $line in
    'udfburnd: 91 Read' | 'udfburnd: 92 Write') pass ;;
    *) fail "the line of a client that went away: $line" ;;
esac
crash

# A daemon that ends by itself: after the connection by which it was seen to listen it takes one more.
serve --connections 2
run send "$socket"
told 'the last connection' 0 "$second" ''
ended 'the daemon ends'

# The count of connections before the image, and between it and the socket.
start --connections 1000000 "$image" "$socket"
crash
start "$image" --connections=7 "$socket"
for connection in 2 3 4 5 6 7; do
    run send "$socket"
    told "connection $connection of 7" 0 "$second" ''
done
ended 'the daemon ends after seven connections'
# Nobody connects.
"$udfburnd" "$image" "$socket" --connections 0 2> daemon.errors &
daemon=$!
ended 'the daemon ends without a connection'

# Images that were cut, between blocks and inside one.
input=none
run ls "$image" /
told 'the root with three names' 0 'f a\nd d\nd e\n' ''
for bytes in $((278 * 2048)) $((275 * 2048)) $((275 * 2048 + 1024)); do
    cut_to cut.img "$bytes"
    input=none
    run ls cut.img /
    told "an image cut to $bytes bytes" 0 'f a\nd d\n' ''
    input=both
    run apply cut.img
    told "replies in an image cut to $bytes bytes" 0 "$first$second" ''
done
cut_to cut.img $((100 * 2048))
input=none
run ls cut.img /
told 'a format that was cut' 1 '' 'udfburn: 66 NotFormatted\n'
run format cut.img DISK 0 3000
told 'other words for it' 1 '' 'udfburn: 61 NotBlank\n'
run format cut.img DISC 0 3000
told 'the same words for it' 0 'formatted\n' ''
holds 'it is whole' blocks cut.img 262

# Images that were damaged: the entry of `/a`, its name in the root, and the entry of the last table.
cp before.img damaged.img
flip damaged.img $((262 * 2048 + 176)) 112
input=none
run get damaged.img /a
told 'a damaged entry' 1 '' 'udfburn: 67 Damaged block 262 cause 21\n'
input=create
run apply damaged.img
told 'a request to a damaged volume' 0 '\002\000\000\000\047\000' ''
holds 'nothing is written to it' blocks damaged.img 267
cp before.img damaged.img
flip damaged.img $((263 * 2048 + 79)) 142
input=none
run ls damaged.img /
told 'a damaged directory' 1 '' 'udfburn: 67 Damaged block 263 cause 31\n'
cp before.img damaged.img
flip damaged.img $((266 * 2048 + 56)) 007
run ls damaged.img /
told 'the state before a damaged table' 0 '' ''
cp before.img damaged.img
flip damaged.img $((261 * 2048 + 56)) 007
run ls damaged.img /
told 'the state after a damaged link' 0 'f a\n' ''
for command in log check; do
    run "$command" damaged.img
    told "$command of a damaged link" 1 '' 'udfburn: 67 Damaged block 261 cause 78\n'
done

# An output that takes no bytes.
if [ -c /dev/full ]; then
    cp before.img full.img
    : > output
    status=0
    "$udfburn" apply full.img < make_directory 2> errors > /dev/full || status=$?
    told 'a full disk' 1 '' 'udfburn: 92 Write\n'
    input=make_directory
    run apply full.img
    told 'what was committed before it' 0 "$second" ''
    holds 'it was committed once' blocks full.img 273
fi

counted
