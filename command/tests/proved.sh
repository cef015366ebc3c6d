# The proved programs, which have no exit status: where reading or writing fails they say so in one line. command/tests/run reads this file.
# shellcheck shell=bash disable=SC2154,SC2034

no_input='replay: standard input cannot be read, so the lines end early'
no_output='replay: standard output cannot be written, so lines are missing'
proved=$top/target/bin/replay

run "$proved" <seven.trace
ends 'the proved program' 0 seven.lines
run "$proved" <folder
ends 'the proved program and a folder' 0 empty "$no_input"
run "$proved" <&-
ends 'the proved program and a closed input' 0 empty "$no_input"
"$proved" <seven.trace >/dev/full 2>err
: >out
ends 'the proved program and a full disk' 0 empty "$no_output"
"$proved" <seven.trace >&- 2>err
ends 'the proved program and a closed output' 0 empty "$no_output"

slowly "$proved"

# ---- the week's program: no page of a file that was not read to its end
no_week='week: standard input cannot be read, so no page is printed'
no_page='week: standard output cannot be written, so the page is missing'
week=$top/target/bin/week

run "$week" <short.week
ends 'the week' 0 week.lines
run "$week" <folder
ends 'the week and a folder' 0 empty "$no_week"
run "$week" <&-
ends 'the week and a closed input' 0 empty "$no_week"
"$week" <short.week >/dev/full 2>err
: >out
ends 'the week and a full disk' 0 empty "$no_page"
"$week" <short.week >&- 2>err
ends 'the week and a closed output' 0 empty "$no_page"

# FILE, COMMAND..: standard input gives the file's bytes, and then reads fail: it is the outer end of a terminal whose inner end is closed.
then_fails() {
    python3 -c '
import os, pty, subprocess, sys, tty
outer, inner = pty.openpty()
tty.setraw(inner)
with open(sys.argv[1], "rb") as file:
    os.write(inner, file.read())
os.close(inner)
sys.exit(subprocess.run(sys.argv[2:], stdin=outer).returncode)' "$@"
}
run then_fails short.week "$week"
ends 'a read that fails behind whole reports' 0 empty "$no_week"
run then_fails short.week ./lumbixet week
ends 'a read that fails behind whole reports, and the command' 3 empty 'lumbixet: standard input: Input/output error'
run then_fails seven.trace "$proved"
ends 'a read that fails behind whole records' 0 seven.lines "$no_input"

# A pipe that delivers slowly: a read that gives little is not the end.
late() {
    { head -c 30 short.week && sleep 0.2 && tail -c +31 short.week; } | "$@"
}
run late "$week"
ends 'a week that comes late' 0 week.lines
run late ./lumbixet week
ends 'a week that comes late, and the command' 0 week.lines
