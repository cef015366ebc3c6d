# Nothing that is read is written, and nothing is written half. command/tests/run reads this file.
# shellcheck shell=bash disable=SC2154,SC2034,SC2094

# KEPT, SAID, ARGUMENTS..: wrong use that leaves the file KEPT as it was.
keeps() {
    local kept=$1 said=$2
    shift 2
    cp "$kept" before
    run ./lumbixet "$@"
    ends "an output over an input: $*" 2 empty "lumbixet: $said"
    run cat "$kept"
    ends "$kept after: $*" 0 before
}

# ---- an output is never an input, whatever it is called
cp seven.trace h.trace
ln h.trace hard
ln -s h.trace soft
keeps h.trace '--picture h.trace would overwrite an input' replay --picture h.trace h.trace
keeps h.trace '--picture ./h.trace would overwrite an input' replay --picture=./h.trace h.trace
keeps h.trace '--picture hard would overwrite an input' replay --picture hard h.trace
keeps h.trace '--picture soft would overwrite an input' replay --picture soft h.trace
keeps h.trace '--picture h.trace would overwrite an input' replay --picture h.trace soft
cp h.trace before
status=0
./lumbixet replay --picture h.trace <h.trace >out 2>err || status=$?
ends 'a picture over standard input' 2 empty 'lumbixet: --picture h.trace would overwrite an input'
run cat h.trace
ends 'standard input after that' 0 before
status=0
./lumbixet replay h.trace >>h.trace 2>err || status=$?
cp h.trace out
ends 'lines behind the records that are read' 2 before 'lumbixet: standard output is the file that is read: h.trace'
status=0
./lumbixet week <h.trace >>h.trace 2>err || status=$?
cp h.trace out
ends 'lines behind standard input' 2 before 'lumbixet: standard output is the file that is read: standard input'

# ---- nor over another file that is no picture, nor over the lines
cp odd.trace other.trace
keeps other.trace '--picture other.trace is there already, and this command did not write it' replay --picture other.trace h.trace
: >lines
status=0
./lumbixet replay --picture lines h.trace >lines 2>err || status=$?
cp lines out
ends 'a picture over the lines' 2 empty 'lumbixet: --picture lines is standard output, too'

# ---- a picture replaces an older one, through a link too, with its permissions; a device takes the bytes
./lumbixet replay --picture drawn.svg odd.trace >/dev/null
chmod 640 drawn.svg
ln -s drawn.svg link.svg
run ./lumbixet replay --picture link.svg h.trace
ends 'a picture over an older one' 0 seven.lines
run ./lumbixet replay --picture new.svg h.trace
run cmp drawn.svg new.svg
ends 'the file behind a link' 0 empty
run stat -c '%a %h' drawn.svg
echo '640 1' >line
ends 'its permissions' 0 line
[ -L link.svg ] || fault 'a link' 'it is a link no more'
run ./lumbixet replay --picture /dev/null h.trace
ends 'a picture for a device' 0 seven.lines
[ -c /dev/null ] || fault 'a device' 'it is a device no more'

# ---- a disk that is full after 4 KiB: the older picture stays whole, and nothing else is left
cp drawn.svg before
status=0
(trap '' XFSZ && ulimit -f 4 && ./lumbixet replay --picture drawn.svg h.trace) >out 2>err || status=$?
ends 'a disk that becomes full' 3 seven.lines 'lumbixet: drawn.svg: File too large'
run cat drawn.svg
ends 'the older picture on a full disk' 0 before
status=0
(trap '' XFSZ && ulimit -f 4 && ./lumbixet replay --picture never.svg h.trace) >out 2>err || status=$?
ends 'a disk that becomes full, and no older picture' 3 seven.lines 'lumbixet: never.svg: File too large'
run ls -A
holds 'nothing half written' never.svg out not
holds 'nothing left aside' .lumbixet out not
run ./lumbixet replay --picture nowhere/h.svg h.trace
ends 'a picture in a folder that is not there' 3 seven.lines 'lumbixet: nowhere/h.svg: No such file or directory'
