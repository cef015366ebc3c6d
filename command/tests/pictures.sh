# Pictures of hearings agree with the lines, whatever the hearing and its length. command/tests/run reads this file.
# shellcheck shell=bash disable=SC2154,SC2034

# WHAT, TRACE, [FROM TO]: the counts of the picture, or of that part, are those of the lines.
agrees() {
    local what=$1 trace=$2 part=()
    [ $# -eq 2 ] || part=(--from "$3us" --to "$4us")
    shift 2
    ./lumbixet replay --picture agrees.svg "${part[@]}" "$trace" >agrees.lines
    run python3 "$tests/count_again.py" "$trace" agrees.lines agrees.svg "$@"
    cat out >>err
    : >out
    ends "the picture of $what" 0 empty
}

# ---- the bundled hearing, whole and in parts; then each in which a picture might go wrong
cp "$top/examples/hearing.trace" hearing.trace
agrees 'the bundled hearing' hearing.trace
agrees 'its first half' hearing.trace 0 500000
agrees 'its second half' hearing.trace 500000 2000000
agrees 'what comes before it' hearing.trace 3000000 4000000
agrees 'each kind of event' odd.trace
agrees 'an empty hearing' empty
agrees "document 01's example" seven.trace

{ event 1 1 0 0 && event 1 1 5000 1000; } >far.trace
agrees 'packets 0 and 5,000' far.trace
holds 'how many never came' 'data-count="lost" font-weight="600">4,999<' agrees.svg
{ event 1 1 5000 1000000 && event 1 1 5002 1005000 && event 1 1 4500 1010000 && event 1 1 3000 1011000; } >high.trace
agrees 'a hearing that begins at packet 5,000' high.trace
event 1 1 $((2 ** 62 - 1)) 7 >last.trace
agrees 'the largest number alone' last.trace
{ event 1 1 0 $((2 ** 62)) && event 4 0 0 9 && event 1 1 0 100 && event 4 0 0 -1 && event 3 0 0 200 && event 1 1 1 50 && event 2 0 0 $((2 ** 62 - 1)); } >wild.trace
agrees 'times that go back and are too large' wild.trace
agrees 'a part of that' wild.trace 0 150

# ---- an hour, 720,000 packets: columns, in at most 2 MB and 2 seconds
python3 - >hour.trace <<'PY'
import struct, sys
record = struct.Struct(">BB6xQQ").pack
out = bytearray()
for number in range(720_000):
    time = 5_000 * number
    if number % 50 == 7 or number // 6_000 == 40 and number % 3 == 0:
        continue
    out += record(1, 1 if number % 400 else 3, number, time)
    if number % 331 == 5 and (number - 3) % 50 != 7:
        out += record(1, 1, number, time + 1)
    if number % 50 == 11 and number % 7 == 0:
        out += record(1, 1, number - 4, time + 900)
    if number % 5 == 4:
        out += record(2, 0, 0, time + 950) + record(3, 0, 0, time + 1_000)
sys.stdout.buffer.write(out)
PY
agrees 'an hour' hour.trace
# of the processor, since others may use it
took=$(TIMEFORMAT='%U %S' && { time ./lumbixet replay --picture agrees.svg hour.trace >/dev/null; } 2>&1)
tried=$((tried + 2))
awk '{ exit $1 + $2 >= 2 }' <<<"$took" || fault 'an hour' "it took $took seconds"
[ "$(stat -c %s agrees.svg)" -lt 2000000 ] || fault 'an hour' "its picture has $(stat -c %s agrees.svg) bytes"
head -c 2400000 hour.trace >start.trace
agrees 'four seconds of minutes' start.trace 199000000 203000000
agrees 'a minute and a half of them' start.trace 99000000 189000000

# ---- times as they are typed
# TIME, MICROSECONDS: that time as the end, and the same in microseconds.
same_time() {
    ./lumbixet replay --picture typed.svg --to "$1" hearing.trace >/dev/null
    ./lumbixet replay --picture agrees.svg --to "$2us" hearing.trace >/dev/null
    run cmp typed.svg agrees.svg
    ends "the time $1" 0 empty
}
same_time 250ms 250000
same_time 0.25s 250000
same_time 0:00.25 250000
same_time 0:0:0.25 250000
same_time '250 ms' 250000
same_time 1m 60000000
same_time 1min 60000000
same_time 1h 3600000000
same_time 1:01:01.5 3661500000
