# What the command says and draws of lines of statuses. command/tests/run reads this file.
# shellcheck shell=bash disable=SC2154,SC2034

cp "$top/examples/objects.expected" objects.lines
run ./lumbixet objects objects.lines
ends 'lines of statuses, as they are' 0 objects.lines
cat >two.strips <<'END'
502 is lost & <gone>.
 90000  RR--R.  total 5, received 3, late 0, lost 2, average -20000
120001  RR-LRP  total 6, received 3, late 1, lost 2, average 16666
END
cat >strips.words <<'END'
502 is lost & <gone>.
At 90 ms: received 500, 501, 504; not received 502, 503; no status yet 505; total 5, received 3, late 0, lost 2, average -20,000.
At 120.001 ms: received 500, 501, 504; late 503; not received 502; partial 505; total 6, received 3, late 1, lost 2, average 16,666.
END
run ./lumbixet objects --words --first 500 two.strips
ends 'statuses in words' 0 strips.words
cat >strips.json <<'END'
{"file":"-","time_us":90000,"first":0,"statuses":["received","received","not received","not received","received","no status yet"],"total":5,"received":3,"late":0,"lost":2,"average":-20000}
{"file":"-","time_us":120001,"first":0,"statuses":["received","received","not received","late","received","partial"],"total":6,"received":3,"late":1,"lost":2,"average":16666}
END
run ./lumbixet objects --json <two.strips
ends 'statuses for machines' 0 strips.json

# FILE: its picture has a letter for each status of the lines, and the numbers of each summary, in their order.
drawn_as_said() {
    ./lumbixet objects --first 500 --picture strips.svg --page strips.html "$1" >/dev/null
    run python3 "$tests/strips_again.py" "$1" strips.svg
    cat out >>err
    : >out
    ends "the picture of $1" 0 empty
    holds 'a page of statuses' 'no status yet 505' strips.html
}
drawn_as_said objects.lines
drawn_as_said two.strips
holds 'a remark on a page' '<li>502 is lost &amp; &lt;gone&gt;.</li>' strips.html

run ./lumbixet objects --strict "$top/LICENSE"
cp out printed
ends 'no line has statuses' 1 printed "lumbixet: $top/LICENSE: this looks like text, not like lines of statuses"
run ./lumbixet objects --strict empty
ends 'no lines at all' 1 empty 'lumbixet: empty: this does not look like lines of statuses: nothing at its start does'
