# A file given to the wrong command: the answers stay, and a line on standard error says what it looks like. command/tests/run
# reads this file.
# shellcheck shell=bash disable=SC2154,SC2034

# STATUS, LOOKS, ARGUMENTS..: the last argument is the file.
looks() {
    local must=$1 looks=$2
    shift 2
    run ./lumbixet "$@"
    cp out printed
    ends "$*" "$must" printed "lumbixet: ${*: -1}: this $looks"
}

{ bytes d4c3b2a1 && head -c 200 /dev/zero; } >a.pcap
{ bytes 0a0d0d0a && head -c 200 /dev/zero; } >a.pcapng
cp "$top/README.md" "$top/examples/week.reports" "$top/examples/hearing.trace" "$top/examples/hearing.svg" .
gzip -c hearing.trace >hearing.trace.gz
printf '02 05 00 01\n02 00 01\n' >frame.hex
./lumbixet week week.reports >week.page
./lumbixet replay hearing.trace >hearing.log
head -c 240 /dev/zero >zeros

hearing='not like the records of a hearing' reports='not like a file of reports, each after its length'
looks 0 "looks like a packet capture (pcap), $hearing" replay a.pcap
looks 1 "looks like a packet capture (pcap), $hearing" replay --strict a.pcap
looks 0 "looks like a packet capture (pcapng), $hearing" replay --json a.pcapng
looks 0 "looks like text, $hearing" replay README.md
looks 0 "looks like the lines that replay prints, $hearing" replay hearing.log
looks 0 "looks like compressed data (gzip), $hearing" replay hearing.trace.gz
looks 0 "looks like a picture (SVG), $hearing" replay hearing.svg
looks 0 "looks like a file of reports, each after its length, $hearing; try 'lumbixet week'" replay week.reports
looks 0 "looks like a report, $hearing; try 'lumbixet report'" replay good.report
looks 0 'does not look like the records of a hearing: nothing at its start does' replay zeros
looks 0 "looks like the records of a hearing, $reports; try 'lumbixet replay'" week hearing.trace
looks 1 "looks like the records of a hearing, $reports; try 'lumbixet replay'" week --strict hearing.trace
looks 0 "looks like text, $reports" week README.md
looks 0 "looks like the page of a week, $reports" week week.page
looks 0 "looks like a report, $reports; try 'lumbixet report'" week good.report
looks 0 "looks like a file of reports, each after its length, not like a report; try 'lumbixet week'" report week.reports
looks 1 "looks like the records of a hearing, not like a report; try 'lumbixet replay'" report --strict hearing.trace
looks 1 'looks like a report of profile 2; try --profile 2' report --strict groups.report
looks 0 "looks like the records of a hearing, not like frames; try 'lumbixet replay'" frame hearing.trace
looks 0 'looks like hexadecimal digits, not like frames' frame frame.hex
looks 1 "looks like a report, not like frames; try 'lumbixet report'" frame --strict good.report

# ---- damaged files that are what they should be give no hint
run ./lumbixet replay --strict odd.trace
cp out printed
ends 'no hint for a damaged hearing' 1 printed
{ bytes 09 && tail -c +2 hearing.trace; } >bad.trace
run ./lumbixet replay --strict bad.trace
cp out printed
ends 'no hint for a bad first record' 1 printed
head -c 60 good.report >cut.report
run ./lumbixet report --strict cut.report
cp out printed
ends 'no hint for a cut report' 1 printed
run ./lumbixet week --strict cut.week
ends 'no hint for a cut week' 1 two.lines
