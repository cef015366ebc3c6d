# What the command prints for a week's reports. command/tests/run reads this file.
# shellcheck shell=bash disable=SC2154,SC2034

# ---- a week: the report twice, between them one of no bytes, one of a byte and one with a wrong total
bytes 00000044 >length
{ cat length good.report && bytes '00000000' && cat length good.report && bytes '00000001 ff' &&
    bytes '0000000f 80 0f 42 40 80 01 86 a0 04 01 01 01 03 00 00'; } >short.week
cat >week.lines <<'END'
accepted 2
refused 2 2
refused 11 1
total 6
received 2
late 2
lost 2
entries received 2
entries late 2
entries not received 2
entries partial 0
END
run ./lumbixet week short.week
ends 'a week' 0 week.lines
run ./lumbixet week <short.week
ends 'a week from standard input' 0 week.lines
run ./lumbixet week --strict - <short.week
ends 'a refused report in a week, and --strict' 1 week.lines
cat >week.json <<'END'
{"file":"short.week","result":0,"refusal":null,"accepted":2,"refused":{"2":2,"11":1},"total":6,"received":2,"late":2,"lost":2,"entries":{"received":2,"late":2,"not received":2,"partial":0},"full":[]}
END
run ./lumbixet week --json short.week
ends 'a week for machines' 0 week.json

# A report whose total is 2^62 - 1, five times, and one of 8,193 bytes: totals past 2^64 - 1.
for _ in 1 2 3 4 5; do bytes '00000017 01 02 ffffffffffffffff ffffffffffffffff 00 00 00 00 00'; done >full.week
{ bytes '00002001' && head -c 8193 /dev/zero; } >>full.week
cat >full.lines <<'END'
accepted 5
refused 20 1
total 18446744073709551615 full
received 18446744073709551615 full
late 0
lost 0
entries received 0
entries late 0
entries not received 0
entries partial 0
END
run ./lumbixet week full.week
ends 'totals past the most' 0 full.lines
cat >full.json <<'END'
{"file":"full.week","result":0,"refusal":null,"accepted":5,"refused":{"20":1},"total":"18446744073709551615","received":"18446744073709551615","late":0,"lost":0,"entries":{"received":0,"late":0,"not received":0,"partial":0},"full":["total","received"]}
END
run ./lumbixet week --json full.week
ends 'totals past the most, for machines' 0 full.json

# Cut in a report, in a length, and in a long report.
echo 2 >two.lines
for length in 71 74; do
    head -c $length short.week >cut.week
    run ./lumbixet week cut.week
    ends "a week that ends early after $length bytes" 0 two.lines
done
{ bytes '00002001' && head -c 8192 /dev/zero; } >cut.week
run ./lumbixet week cut.week
ends 'a week that ends early in a long report' 0 two.lines
run ./lumbixet week --strict cut.week
ends 'a week that ends early, and --strict' 1 two.lines
echo '{"file":"cut.week","result":2,"refusal":"the bytes end inside a field"}' >line
run ./lumbixet week --json cut.week
ends 'a week that ends early, for machines' 0 line

# ---- several files are one week; where one ends early there are no totals over all
early='lumbixet: cut.week: the file ends early, so there are no totals over all files'
run ./lumbixet week cut.week short.week
ends 'several files, one of which ends early' 0 two.lines "$early"
run ./lumbixet week --strict short.week cut.week
ends 'that, and --strict' 1 two.lines "$early"
cat >several.lines <<'END'
accepted 7
refused 2 2
refused 11 1
refused 20 1
total 18446744073709551615 full
received 18446744073709551615 full
late 2
lost 2
entries received 2
entries late 2
entries not received 2
entries partial 0
END
run ./lumbixet week short.week full.week
ends 'several files' 0 several.lines
run ./lumbixet week full.week - <short.week
ends 'several files, one from standard input' 0 several.lines
cat short.week full.week >both.week
run ./lumbixet week both.week
ends 'the same in one file' 0 several.lines
run ./lumbixet week short.week nothing.week
ends 'a file that is not there' 3 empty 'lumbixet: nothing.week: No such file or directory'

cat >each.lines <<'END'
  file        accepted  refused  total                               received                            late  lost  entries received  entries late  entries not received  entries partial
  short.week  2         3        6                                   2                                   2     2     2                 2             2                     0
  full.week   5         1        18,446,744,073,709,551,615 or more  18,446,744,073,709,551,615 or more  0     0     0                 0             0                     0
  all files   7         4        18,446,744,073,709,551,615 or more  18,446,744,073,709,551,615 or more  2     2     2                 2             2                     0
END
run ./lumbixet week --each short.week full.week
ends 'a row for each file' 0 each.lines
cat >each.lines <<'END'
  file        accepted    refused  total  received  late  lost  entries received  entries late  entries not received  entries partial
  cut.week    ends early
  short.week  2           3        6      2         2     2     2                 2             2                     0
  all files   ends early
END
run ./lumbixet week --each cut.week short.week
ends 'a row for a file that ends early' 0 each.lines "$early"
cat >some.lines <<'END'
  file        accepted  refused  total  received  late  lost  entries received  entries late  entries not received  entries partial
  short.week  2         3        6      2         2     2     2                 2             2                     0
END
run ./lumbixet week --each short.week nothing.week
ends 'rows, and a file that is not there' 3 some.lines 'lumbixet: nothing.week: No such file or directory'

cat >week.words <<'END'
Of 5 reports 2 were accepted (40.0 %).
Refused with 2, the bytes end inside a field: 2 (40.0 %).
Refused with 11, the total differs from its parts: 1 (20.0 %).
The accepted ones count 6 objects: 2 received (33.3 %), 2 late (33.3 %), 2 lost (33.3 %).
They have 6 entries: 2 received (33.3 %), 2 late (33.3 %), 2 not received (33.3 %), 0 partial (0.0 %).
The timestamps of accepted reports go from 1 s to 1 s.
END
run ./lumbixet week --words short.week
ends 'a week in words' 0 week.words
cat >full.words <<'END'
Of 6 reports 5 were accepted (83.3 %).
Refused with 20, the report is too long: 1 (16.7 %).
The accepted ones count 18,446,744,073,709,551,615 or more objects: 18,446,744,073,709,551,615 or more received, 0 late, 0 lost.
They have 0 entries: 0 received, 0 late, 0 not received, 0 partial.
The timestamps of accepted reports go from 1 us to 1 us.
END
run ./lumbixet week --words full.week
ends 'full totals in words have no percentages' 0 full.words
echo 'The file ends early (2: the bytes end inside a field): nothing is counted.' >early.words
run ./lumbixet week --words cut.week
ends 'a file that ends early, in words' 0 early.words
{ echo '==> short.week <==' && cat week.words && printf '\n==> cut.week <==\n' && cat early.words && printf '\n==> all files <==\n' && cat early.words; } >each.words
run ./lumbixet week --each --words short.week cut.week
ends 'each file in words' 0 each.words "$early"
# 2026-11-17 09:30:05 is 1,794,907,805 s after 1970; the day before that is 86,400 s less
{ bytes '00000010 c0 06 60 75 8a 1f 21 40 00 00 00 00 00 00 00 00' && bytes '00000010 c0 06 60 61 6c 47 c1 40 00 00 00 00 00 00 00 00'; } >dated.week
cat >dated.words <<'END'
Of 2 reports 2 were accepted (100.0 %).
The accepted ones count 0 objects: 0 received, 0 late, 0 lost.
They have 0 entries: 0 received, 0 late, 0 not received, 0 partial.
The timestamps of accepted reports go from 498,561 h 30 min 05 s to 498,585 h 30 min 05 s: 2026-11-16 09:30:05 UTC to 2026-11-17 09:30:05 UTC, if the clock counts from 1970.
END
run ./lumbixet week --words dated.week
ends 'dates where they may be known' 0 dated.words

sed 's/"file":"short.week"/"files":["short.week"]/' week.json | cat week.json - >each.json
run ./lumbixet week --each --json short.week
ends 'each file for machines' 0 each.json
sed 's/"file":"cut.week"/"files":["short.week","cut.week"]/' line >all.json
run ./lumbixet week --json short.week cut.week
ends 'several files for machines' 0 all.json "$early"

# ---- a picture and a page say what the lines say
for name in short full cut dated both; do
    ./lumbixet week --picture week.svg --page week.html "$name.week" >week.out 2>err
    run python3 "$tests/week_again.py" week.out week.svg week.html
    cat out >>err
    : >out
    ends "the picture and the page of $name.week" 0 empty
done
./lumbixet week --page several.html short.week full.week >/dev/null
for row in 'short.week</td><td class="number">2</td><td class="number">3</td><td class="number">6' 'all files</td><td class="number">7</td><td class="number">4'; do
    holds 'a row for each file of a page' "<tr><td>$row" several.html
done

"$top/target/bin/week" <"$top/examples/week.reports" >long.page
run ./lumbixet week "$top/examples/week.reports"
ends 'the bundled week' 0 long.page
