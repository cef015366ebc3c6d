# The page of a hearing: one file, which needs no network and no script. command/tests/run reads this file.
# shellcheck shell=bash disable=SC2154,SC2034

run ./lumbixet replay --page page.html --picture page.svg hearing.trace
cp hearing.log printed
ends 'a page beside the lines' 0 printed
run python3 "$tests/whole_page.py" page.html
cat out >>err
: >out
ends 'the page is whole, and needs nothing else' 0 empty
# ROW: its words, a number and a share, which the picture's second count and a division give
row() { holds "the page's row of $1" "<tr><td>$1</td><td class=\"number\">$2</td><td class=\"number\">$3</td></tr>" page.html; }
row 'came in order' 161 '89.4 %'
row 'came late, below the largest' 6 '3.3 %'
row 'never came' 13 '7.2 %'
row 'order: packets are missing' 9 '18.8 %'
row 'timer: the delay in force has passed' 25 '52.1 %'
holds 'the opening of a page' '<p>250 records: 248 accepted, 2 refused (0.8 %). From 0 us to 1.09885 s after the first record.</p>' page.html
holds 'a refusal in words' '<td class="number">6</td><td>this packet was received before</td><td class="number">1</td><td class="number">0.4 %</td>' page.html
holds 'a refused record' '<li>126: at 466,800 us packet 93 came, ack-eliciting: refused (6: this packet was received before); nothing is due.</li>' page.html
run python3 -c 'import sys; sys.exit(open("page.svg").read() not in open("page.html").read())'
ends 'the picture stands in the page' 0 empty

# ---- shares are never rounded to none or all
{ event 1 1 0 0 && event 1 1 5000 1000; } >far.trace
./lumbixet replay --page page.html far.trace >/dev/null
row 'never came' 4,999 'above 99.9 %'
row 'came in order' 2 'below 0.1 %'
row 'came late, below the largest' 0 '0.0 %'
holds 'nothing was refused' '<p>Nothing was refused.</p>' page.html

# ---- several hearings on one page, a part of one, dates, and names that are no markup
cp seven.trace '<b>&.trace'
./lumbixet replay --page page.html hearing.trace '<b>&.trace' >/dev/null
holds 'a hearing of a page' '<h2>hearing.trace</h2>' page.html
holds 'a name that is no markup' '<h2>&lt;b&gt;&amp;.trace</h2>' page.html
./lumbixet replay --page page.html --from 0.5s --to 1s hearing.trace >/dev/null
holds 'a part of a hearing' 'Only from 500 ms to 1 s.' page.html
# 2026-11-17 09:30:05 UTC, and two seconds later
{ event 1 1 0 1794907805000000 && event 1 1 1 1794907807250000; } >dated.trace
./lumbixet replay --page page.html dated.trace >/dev/null
holds 'dates of a hearing' '<p>2026-11-17 09:30:05 UTC to 2026-11-17 09:30:07 UTC, if the clock counts from 1970</p>' page.html

# ---- many refusals are counted, and the first hundred told
for ((number = 0; number < 150; number++)); do event 9 0 0 0; done >refused.trace
./lumbixet replay --page page.html refused.trace >/dev/null 2>&1
holds 'many refusals' '<p>And 50 more.</p>' page.html
run grep -c '^<li>' page.html
echo 100 >line
ends 'refused records that are told' 0 line

# ---- no page where an input cannot be read; pages are outputs like pictures
rm -f page.html
run ./lumbixet replay --page page.html seven.trace nothing.trace
cp out printed
ends 'a file that is not there' 3 printed 'lumbixet: nothing.trace: No such file or directory'
[ ! -e page.html ] || fault 'a file that is not there' 'there is a page'
run ./lumbixet week --page short.week short.week
ends 'a page over an input' 2 empty 'lumbixet: --page short.week would overwrite an input'
run ./lumbixet week --page ./one --picture one short.week
ends 'a page and a picture in one file' 2 empty 'lumbixet: --page ./one is the file of --picture, too'
./lumbixet week --picture one.svg short.week >/dev/null
run ./lumbixet week --page one.svg short.week
ends 'a page over a picture' 2 empty 'lumbixet: --page one.svg is there already, and this command did not write it'
run ./lumbixet week --page /dev/null --picture /dev/null short.week
ends 'a page and a picture for one device' 0 week.lines
run ./lumbixet week --page /dev/full short.week
ends 'a page on a full disk' 3 week.lines 'lumbixet: /dev/full: No space left on device'
