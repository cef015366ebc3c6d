# What the command prints for good and for refused data. command/tests/run reads this file.
# shellcheck shell=bash disable=SC2154,SC2034

# ---- replay: document 01's own lines
cat >seven.lines <<'END'
0 0 0
1 0 0
2 0 0
3 0 0
4 0 3
5 0 0
6 6 0
END
run ./lumbixet replay seven.trace
ends 'a file' 0 seven.lines
run ./lumbixet replay <seven.trace
ends 'standard input' 0 seven.lines
run ./lumbixet replay - <seven.trace
ends 'standard input, by name' 0 seven.lines
run ./lumbixet replay -- seven.trace
ends 'a file behind --' 0 seven.lines
run ./lumbixet replay --strict seven.trace
ends 'a refused record, and --strict' 1 seven.lines
run ./lumbixet replay empty
ends 'an empty hearing' 0 empty

printf '==> seven.trace <==\n' | cat - seven.lines >several.lines
printf '\n==> standard input <==\n0 0 0\n' >>several.lines
head -c 24 seven.trace >one.trace
run ./lumbixet replay seven.trace - <one.trace
ends 'several files, each a hearing of its own' 0 several.lines

run ./lumbixet replay --words seven.trace
ends 'in words' 0 "$tests/seven.words"
run ./lumbixet replay --words odd.trace
ends 'every kind of event, in words' 0 "$tests/odd.words"
run ./lumbixet replay --json odd.trace
ends 'every kind of event, for machines' 0 "$tests/odd.json"

# Each mark, the bytes of an acknowledgment, and numbers at and above 2^53
{ event 1 5 9007199254740992 9007199254740993 && event 1 8 9007199254740993 4611686018427387903 && event 1 14 1 0 && event 3 0 0 0; } >marks.trace
force='"threshold":1000,"reordering":3,"delay_us":25000}'
order='"cause":3,"due":"packets are missing or came out of order"'
cat >marks.json <<END
{"file":"marks.trace","index":0,"event":"packet","number":9007199254740992,"time_us":"9007199254740993","ack_eliciting":true,"mark":"ECT(0)","result":0,"refusal":null,$order,$force
{"file":"marks.trace","index":1,"event":"packet","number":"9007199254740993","time_us":"4611686018427387903","ack_eliciting":false,"mark":"ECT(1)","result":0,"refusal":null,$order,$force
{"file":"marks.trace","index":2,"event":"packet","number":1,"time_us":0,"ack_eliciting":false,"mark":"CE","result":7,"refusal":"this packet lies below the window",$order,$force
{"file":"marks.trace","index":3,"event":"write","time_us":0,"length":12,"bytes":"02c020000000000001000001","result":0,"refusal":null,"cause":0,"due":null,$force
END
run ./lumbixet replay --json marks.trace
ends 'marks, bytes and large numbers, for machines' 0 marks.json
run python3 -c 'import json; [json.loads(line) for line in open("marks.json")]'
ends 'that is JSON' 0 empty

run ./lumbixet replay --picture drawn.svg "$top/examples/hearing.trace"
run cat drawn.svg
ends 'the picture' 0 "$top/examples/hearing.svg"

# ---- replay: 24 MB, and the proved program
"$top/target/bin/replay" <long.trace >long.lines
run ./lumbixet replay long.trace
ends '24 MB' 0 long.lines
run bash -c 'cat long.trace | ./lumbixet replay'
ends '24 MB through a pipe' 0 long.lines

# ---- replay: a pipe that delivers slowly, and cuts records, is answered at once
slowly ./lumbixet replay

# ---- frames: P1 and P6 of document 01 with IMMEDIATE_ACK between, and P6's ranges as type 03
run ./lumbixet frame 40 af 05 0a 80 00 61 a8 03 1f '02 05 00 01 02 00 01' '03 05 00 01 02 00 01 04 00 40 40'
ends 'frames' 0 "$tests/frames.words"
run ./lumbixet frame --json 40af050a800061a803 1F 02050001020001 0305000102000104004040
ends 'frames for machines' 0 "$tests/frames.json"
bytes 40af050a800061a8031f020500010200010305000102000104004040 >frames
run ./lumbixet frame frames
ends 'frames in a file' 0 "$tests/frames.words"
run ./lumbixet frame - <frames
ends 'frames from standard input' 0 "$tests/frames.words"
{ printf '==> HEX <==\nIMMEDIATE_ACK, 1 byte at byte 0\n  0  1f  type  IMMEDIATE_ACK: the sender asks for an acknowledgment\n\n==> frames <==\n' &&
    cat "$tests/frames.words"; } >both
run ./lumbixet frame 1f frames
ends 'digits and a file' 0 both

# Digits as people paste them, and on standard input
run ./lumbixet frame 0x40 0xaf 05:0a:80:00:61:a8:03 1F '0X02050001020001' 03:05:00:01:02:00:01:04:00:40:40
ends 'frames with 0x and colons' 0 "$tests/frames.words"
printf '40af 05 0a\n80:00:61:a8 03 0x1f\n02 05 00 01 02 00 01\n03 05 00 01 02 00 01 04 00 40 40\n' >frames.hex
run ./lumbixet frame - <frames.hex
ends 'frames as digits from standard input' 0 "$tests/frames.words"
for word in 4 0x 0x4 02:5 g0 ''; do
    run ./lumbixet frame "$word"
    ends "no digits in pairs: '$word'" 3 empty "lumbixet: ${word:-''}: No such file or directory"
done

# PADDING and PING are passed over
cat >padded.words <<'END'
PADDING, 3 bytes at byte 0
PING, 1 byte at byte 3
PING, 1 byte at byte 4
IMMEDIATE_ACK, 1 byte at byte 5
  5  1f  type  IMMEDIATE_ACK: the sender asks for an acknowledgment
PADDING, 1 byte at byte 6
END
run ./lumbixet frame --strict 00 00 00 01 01 1f 00
ends 'PADDING and PING' 0 padded.words
cat >padded.json <<'END'
{"file":null,"at":0,"frame":"PADDING","length":2,"result":0,"refusal":null}
{"file":null,"at":2,"frame":"PING","length":1,"result":0,"refusal":null}
{"file":null,"at":3,"frame":null,"result":3,"refusal":"the frame type is another one","place":3,"field":"type: STREAM, which is not read here"}
END
run ./lumbixet frame --json 00 00 01 0a
ends 'PADDING and PING for machines' 0 padded.json

# DIGITS, and the line that they give.
refused_frame() {
    echo "frame refused ($2" >line
    run ./lumbixet frame --strict "$1"
    ends "the frame $1" 1 line
}
refused_frame 401f '3: the frame type is another one) at byte 0, type: IMMEDIATE_ACK, but not in its shortest form'
refused_frame 04 '3: the frame type is another one) at byte 0, type: RESET_STREAM, which is not read here'
refused_frame '40 03' '3: the frame type is another one) at byte 0, type: ACK, but not in its shortest form'
names=(4 RESET_STREAM 5 STOP_SENDING 6 CRYPTO 7 NEW_TOKEN 8 STREAM f STREAM 10 MAX_DATA 11 MAX_STREAM_DATA 12 MAX_STREAMS 13 MAX_STREAMS
    14 DATA_BLOCKED 15 STREAM_DATA_BLOCKED 16 STREAMS_BLOCKED 17 STREAMS_BLOCKED 18 NEW_CONNECTION_ID 19 RETIRE_CONNECTION_ID
    1a PATH_CHALLENGE 1b PATH_RESPONSE 1c CONNECTION_CLOSE 1d CONNECTION_CLOSE 1e HANDSHAKE_DONE 30 DATAGRAM)
for ((at = 0; at < ${#names[@]}; at += 2)); do
    refused_frame "$(printf '%02x' "0x${names[at]}")" "3: the frame type is another one) at byte 0, type: ${names[at + 1]}, which is not read here"
done
refused_frame '40 00' '3: the frame type is another one) at byte 0, type: PADDING, but not in its shortest form'
refused_frame '20' '3: the frame type is another one) at byte 0, type: 0x20, which is none of RFC 9000'
refused_frame '03 05 00 00 02 07 40' '2: the bytes end inside a field) at byte 6, ECT(1) count'
refused_frame 40 '2: the bytes end inside a field) at byte 0, type'
refused_frame 40af05 '2: the bytes end inside a field) at byte 3, ack-eliciting threshold'
refused_frame 0205000102 '2: the bytes end inside a field) at byte 5, gap'
refused_frame 0205000006 '14: a range goes below number 0) at byte 4, first range'
refused_frame 02050001020002 '14: a range goes below number 0) at byte 6, range length'
echo '{"file":"-","at":0,"frame":null,"result":2,"refusal":"the bytes end inside a field","place":0,"field":"type"}' >line
run ./lumbixet frame --json - <empty
ends 'no bytes, for machines' 0 line

# ---- reports: P9 of document 01 with two metrics and three entries
head='80 0f 42 40 80 01 86 a0 03 01 01 01 03'
seven='0000000000000007 00 000000 000003e8' eight='0000000000000008 01 000000 00011170' nine='0000000000000009 02 000000 00000000'
bytes "$head 02 02 40 fa 12 0f 03 $seven $eight $nine" | tr -d ' ' >good.report
run ./lumbixet report good.report
ends 'a report' 0 "$tests/report.words"
run ./lumbixet report - <good.report
ends 'a report from standard input' 0 "$tests/report.words"
run ./lumbixet report --json good.report
ends 'a report for machines' 0 "$tests/report.json"

# DIGITS of a report, and the line that they give.
refused_report() {
    bytes "$1" >bad.report
    echo "report refused ($2" >line
    run ./lumbixet report --strict bad.report
    ends "the report $1" 1 line
}
refused_report '80 0f 42 40 80 01' '2: the bytes end inside a field) at byte 4, interval'
refused_report '80 0f 42 40 80 01 86 a0 04 01 01 01 03 00 00' '11: the total differs from its parts) at byte 11, lost'
refused_report "$head 05" '10: a metric count, metric type or entry count breaks its rule) at byte 13, metric count'
refused_report "$head 01 03 00 00" '10: a metric count, metric type or entry count breaks its rule) at byte 14, metric type'
refused_report "$head 00 40 c9" '10: a metric count, metric type or entry count breaks its rule) at byte 14, entry count'
refused_report "$head 00 40 c8" '2: the bytes end inside a field) at byte 16, entry 0'
refused_report "$head 00 02 $seven 00" '2: the bytes end inside a field) at byte 31, entry 1'
refused_report "$head 00 02 $eight $seven" '12: an entry breaks its rule) at byte 31, entry 1'
refused_report "$head 00 02 $seven $seven" '12: an entry breaks its rule) at byte 31, entry 1'
refused_report "$head 00 00 ff" '13: bytes remain after the report) at byte 15, what follows'
echo '{"file":"-","result":13,"refusal":"bytes remain after the report","place":15,"field":"what follows"}' >line
run ./lumbixet report --json - <bad.report
ends 'a refused report for machines' 0 line

# ---- reports of profile 2: two groups, and a metric of a type without a name
summary='80 0f 42 40 80 01 86 a0 03 01 01 01 00'
forty='0000000000000007 0000000000000028 01 000000 000003e8' next='0000000000000007 0000000000000029 02 000000 00000000'
zero='0000000000000008 0000000000000000 00 000000 000001f4'
bytes "$summary 02 02 40 50 14 05 03 $forty $next $zero" | tr -d ' ' >groups.report
run ./lumbixet report --profile 2 groups.report
ends 'a report of profile 2' 0 "$tests/groups.words"
run ./lumbixet report --json --profile=2 groups.report
ends 'a report of profile 2 for machines' 0 "$tests/groups.json"
run ./lumbixet report --profile=1 good.report
ends 'a report, its profile named' 0 "$tests/report.words"

# DIGITS of a report of profile 2, and the line that they give.
refused_groups() {
    bytes "$1" | tr -d ' ' >bad.report
    echo "report refused ($2" >line
    run ./lumbixet report --strict --profile 2 bad.report
    ends "the report of profile 2 $1" 1 line
}
refused_groups "$summary 00 02 $zero $forty" '12: an entry breaks its rule) at byte 39, entry 1'
refused_groups "$summary 00 02 $forty $forty" '12: an entry breaks its rule) at byte 39, entry 1'
refused_groups "$summary 00 02 $forty 00" '2: the bytes end inside a field) at byte 39, entry 1'
refused_groups "$summary 09" '10: a metric count, metric type or entry count breaks its rule) at byte 13, metric count'
refused_groups "$summary 01 03" '10: a metric count, metric type or entry count breaks its rule) at byte 14, metric type'
