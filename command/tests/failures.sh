# What the command says where it is used wrongly and where reading or writing fails, and what it does on a terminal.
# command/tests/run reads this file.
# shellcheck shell=bash disable=SC2154,SC2034

# ---- reading fails: status 3, the file's name and the system's reason
run ./lumbixet replay nothing.trace
ends 'a file that is not there' 3 empty 'lumbixet: nothing.trace: No such file or directory'
mkdir folder
run ./lumbixet replay folder
ends 'a folder' 3 empty 'lumbixet: folder: Is a directory'
run ./lumbixet replay <folder
ends 'a folder as standard input' 3 empty 'lumbixet: standard input: Is a directory'
run ./lumbixet report folder
ends 'a folder as a report' 3 empty 'lumbixet: folder: Is a directory'
run ./lumbixet week folder
ends 'a folder as a week' 3 empty 'lumbixet: folder: Is a directory'
run ./lumbixet frame folder
ends 'a folder as a frame' 3 empty 'lumbixet: folder: Is a directory'
run ./lumbixet replay <&-
ends 'a closed input' 3 empty 'lumbixet: standard input: Bad file descriptor'

printf '==> nothing.trace <==\n\n==> seven.trace <==\n' | cat - seven.lines >rest.lines
run ./lumbixet replay --strict nothing.trace seven.trace
ends 'a file that is not there, and one that is' 3 rest.lines 'lumbixet: nothing.trace: No such file or directory'

# Whoever may read every file tries it as one who may not.
cp seven.trace secret.trace
chmod 000 secret.trace
other=()
[ "$(id -u)" != 0 ] || other=(setpriv --reuid=65534 --regid=65534 --clear-groups)
if [ ${#other[@]} -eq 0 ] || command -v setpriv >/dev/null; then
    run "${other[@]}" ./lumbixet replay secret.trace
    ends 'a file without permission' 3 empty 'lumbixet: secret.trace: Permission denied'
else
    echo 'command: skipped: a file without permission, since there is no setpriv(1) to become one who may not read it'
fi

# ---- writing fails: status 3
# ARGUMENTS.. with a full disk as output.
full() {
    status=0
    ./lumbixet "$@" >/dev/full 2>err || status=$?
    : >out
    ends "a full disk: $*" 3 empty 'lumbixet: standard output: No space left on device'
}
full replay seven.trace
full replay --words seven.trace
full replay --json long.trace
full frame 1f
full report good.report
full week short.week
full --help
full --version
status=0
./lumbixet replay seven.trace >&- 2>err || status=$?
: >out
ends 'a closed output' 3 empty 'lumbixet: standard output: Bad file descriptor'
status=0
./lumbixet replay --picture kept.svg seven.trace >&- 2>err || status=$?
ends 'a closed output and a picture' 3 empty 'lumbixet: standard output: Bad file descriptor'
# An input that may be written too must not take the place of the closed output.
cp seven.trace both.trace
status=0
./lumbixet replay <>both.trace >&- 2>err || status=$?
cp both.trace out
ends 'a closed output and an input that may be written' 3 seven.trace 'lumbixet: standard output: Bad file descriptor'
: >out
status=0
./lumbixet replay nothing.trace >&- 2>&- || status=$?
: >err
ends 'nowhere to write' 3 empty
run ./lumbixet replay --picture /dev/full seven.trace
ends 'a picture on a full disk' 3 seven.lines 'lumbixet: /dev/full: No space left on device'
run ./lumbixet replay --picture folder seven.trace
ends 'a picture in place of a folder' 3 seven.lines 'lumbixet: folder: Is a directory'

# ---- a broken pipe ends it quietly, by the signal (13) that ends other tools
head -n 1 long.lines >first.lines
run bash -c './lumbixet replay long.trace | head -n 1; exit "${PIPESTATUS[0]}"'
ends 'a broken pipe' 141 first.lines

# ---- wrong use: status 2, and where help is
# SAID, ARGUMENTS..: what is said first, and then whose help to read.
wrong_use() {
    local said=$1 help=$2
    shift 2
    run ./lumbixet "$@"
    ends "wrong use: $*" 2 empty "lumbixet: $said
Try 'lumbixet $help--help'."
}
wrong_use 'a command is missing: replay, frame, report, week or objects' ''
wrong_use "unknown command 'play'; did you mean 'replay'?" '' play
wrong_use "unknown command 'wek'; did you mean 'week'?" '' wek
wrong_use "unknown command 'hlep'; did you mean 'help'?" '' hlep
wrong_use "unknown command 'hearing.trace'" '' hearing.trace
wrong_use "unknown command 'xy'" '' xy
wrong_use "unknown command 'fram'; did you mean 'frame'?" '' help fram
wrong_use "unknown option --halp; did you mean '--help'?" '' --halp
wrong_use 'unknown option --words' '' --words
wrong_use "unknown option --word; did you mean '--words'?" 'replay ' replay --word seven.trace
wrong_use '--strict takes no value' 'replay ' replay --strict=yes seven.trace
wrong_use 'unknown option -w' 'replay ' replay -w seven.trace
wrong_use 'unknown option --words' 'frame ' frame --words 1f
wrong_use 'unknown option --picture=x' 'report ' report --picture=x good.report
wrong_use '--profile needs the number of a profile: 1 or 2' 'report ' report --profile 3 good.report
wrong_use '--profile needs the number of a profile: 1 or 2' 'report ' report --profile=one good.report
wrong_use '--profile needs the number of a profile: 1 or 2' 'report ' report --profile
wrong_use '--profile is given twice' 'report ' report --profile 1 --profile=2 good.report
wrong_use 'unknown option --profile' 'frame ' frame --profile 2 1f
wrong_use '--words and --json exclude each other' 'replay ' replay --words --json seven.trace
wrong_use '--picture needs the name of a file to write' 'replay ' replay --picture
wrong_use '--picture needs the name of a file to write' 'replay ' replay --picture= seven.trace
wrong_use '--picture is given twice' 'replay ' replay --picture a --picture b seven.trace
wrong_use '--first needs a number' 'objects ' objects --first x
wrong_use '--picture draws one FILE' 'replay ' replay --picture a seven.trace odd.trace
for time in '' 5 5x s 1:2:3:4 1:x -1s 1.2.3s 99999999999999h; do
    wrong_use '--from needs a time since the first record, such as 250ms, 1.5s, 12min or 1:02:03' 'replay ' replay "--from=$time" seven.trace
done
wrong_use '--to must lie after --from' 'replay ' replay --picture a --from 2s --to 2000ms seven.trace
wrong_use '--from and --to choose what is drawn: give --picture or --page, too' 'replay ' replay --from 2s seven.trace
wrong_use 'unknown option --from' 'week ' week --from 1s short.week
wrong_use 'standard input can be read only once' 'replay ' replay - -
wrong_use 'the bytes of a frame are missing: HEX, a FILE, or - for standard input' 'frame ' frame
wrong_use 'a FILE is missing, or - for standard input' 'report ' report

# ---- help and version
sed -n 's/^#define LUMBIXET_VERSION_TEXT "\(.*\)"$/lumbixet \1/p' "$top/include/lumbixet.h" >version
for words in --version -V 'replay --version' 'week -V' 'frame --version' 'report --version' 'week --version' 'objects --version'; do
    # shellcheck disable=SC2086
    run ./lumbixet $words
    ends "$words" 0 version
done
for name in replay frame report week objects; do
    run ./lumbixet "$name" --help
    holds "$name --help" "lumbixet $name [OPTION..]" out
    cp out help
    ends "$name --help" 0 help
done
run ./lumbixet --help
for name in replay frame report week objects; do holds '--help' "  $name " out; done
cp out help
for words in -h help; do
    run ./lumbixet $words
    ends "$words" 0 help
done
run ./lumbixet frame --help
cp out help
for words in 'help frame' 'frame -h' 'frame 1f -h'; do
    # shellcheck disable=SC2086
    run ./lumbixet $words
    ends "$words" 0 help
done

# ---- colours and progress, on a terminal only
red=$'\e[31m'
run ./lumbixet frame 401f
holds 'no colours in a file' "$red" out not
if command -v script >/dev/null; then
    run script -qec './lumbixet frame 401f' /dev/null
    holds 'colours on a terminal' "${red}refused (3: " out
    run env NO_COLOR=1 script -qec './lumbixet frame 401f' /dev/null
    holds 'no colours where NO_COLOR is set' "$red" out not
    run script -qec './lumbixet replay long.trace >/dev/null' /dev/null
    holds 'progress on a terminal' 'long.trace: 4 %' out
    run script -qec './lumbixet replay seven.trace >/dev/null' /dev/null
    holds 'no progress on a short file' '%' out not
else
    echo 'command: skipped: colours and progress, since there is no script(1) to make a terminal'
fi
