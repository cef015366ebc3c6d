# The inputs with which a fuzzer reached all that it reached (command/tests/fuzz): in every form the command ends by itself, in a
# few seconds and 256 MB, and says what the proved programs say. command/tests/run reads this file.
# shellcheck shell=bash disable=SC2154,SC2034

# ARGUMENTS..: it ends with 0 or 1.
endures() {
    tried=$((tried + 1))
    status=0
    (ulimit -v 262144 && exec timeout 10 ./lumbixet "$@") >out 2>err || status=$?
    [ "$status" -le 1 ] || fault "a fuzzer's input: $*" "it ended with $status: $(head -n 1 err)"
}

inputs=$tests/corpus
for input in "$inputs"/frame/*; do
    endures frame --strict "$input"
    endures frame --json - <"$input"
done
for input in "$inputs"/report/*; do
    endures report --strict "$input"
    endures report --profile 2 --json "$input"
done
for input in "$inputs"/objects/*; do
    endures objects --words --picture fuzzed.svg --page fuzzed.html "$input"
    endures objects --json "$input"
done

# What was printed and drawn for an input is held together at the end.
: >replays
for input in "$inputs"/replay/*; do
    name=hearing-$(basename "$input")
    endures replay --strict --words --page fuzzed.html "$input"
    endures replay --json --from 1ms --to 80ms --page fuzzed.html "$input"
    endures replay --picture "$name.svg" "$input"
    cp "$input" "$name.trace"
    cp out "$name.lines"
    "$top/target/bin/replay" <"$input" | cmp -s - out || fault "a fuzzer's input: $input" 'other lines than the proved program'
    echo "$name.trace $name.lines $name.svg" >>replays
done
: >weeks
for input in "$inputs"/week/*; do
    name=week-$(basename "$input")
    endures week --json --each "$input" "$inputs/week/first"
    endures week --strict --words --page fuzzed.html "$input"
    endures week --picture "$name.svg" --page "$name.html" "$input"
    cp out "$name.lines"
    "$top/target/bin/week" <"$input" | cmp -s - out || fault "a fuzzer's input: $input" 'another page than the proved program'
    echo "$name.lines $name.svg $name.html" >>weeks
done
tried=$((tried + 2))
python3 "$tests/each.py" "$tests/count_again.py" <replays >again 2>&1 || fault "a fuzzer's hearings" "$(cat again)"
python3 "$tests/each.py" "$tests/week_again.py" <weeks >again 2>&1 || fault "a fuzzer's weeks" "$(cat again)"
