# bin/list: its calls and statuses, reads and writes that fail, a live feed, signals, a terminal.
# shellcheck shell=bash disable=SC2016,SC2154
heading='BLOCK CHAR CODE LEAD WORD CORR NEXT CORR'
example=$PWD/tests/list/example.in
listing=$(<tests/list/example.out)

# Calls and statuses.
call "$list" "$example"
check 'a file' "$status $out $err" "0 $listing "
call "$list" <"$example"
check 'standard input' "$status $out $err" "0 $listing "
cp "$example" "$room/a feed"
ln -s "$list" "$room/a link"
call env -C "$room" './a link' 'a feed'
check 'a link, a name with a space, another folder' "$status $out $err" "0 $listing "
for input in tests/list/*.in; do
    case $(tail -n 1 "${input%.in}.out") in
        END*) wanted=0 ;;
        *) wanted=1 ;;
    esac
    call "$list" "$input"
    check "$input" "$status $(cmp "$room/out" "${input%.in}.out" 2>&1) $err" "$wanted  "
done
for word in -h --help; do
    call "$list" "$word"
    check "$word" "$status ${out%%$'\n'*} $err" '0 usage: bin/list [FILE] '
done
for words in -x -- - "''" 'a b' "-h $example" "$example $example"; do
    eval "call '$list' $words"
    check "wrong call: $words" "$status $out ${err%%$'\n'*}" '2  usage: bin/list [FILE]'
done

# Reads and writes that fail.
call "$list" "$room/none"
check 'no such file' "$status $out ${err#*: line *: }" "2  $room/none: No such file or directory"
call env POSIXLY_CORRECT=1 "$list" "$room/none"
check 'no such file, in POSIX mode' "$status $out" '2 '
ln -s loop "$room/loop"
call "$list" "$room/loop"
check 'a file that cannot be opened' "$status $out ${err#*: line *: }" "2  $room/loop: Too many levels of symbolic links"
call "$list" "$room"
check 'a folder' "$status $out $err" "2 $heading read: Is a directory"
call "$list" <&-
check 'standard input closed' "$status $out $err" '2  bin/list: standard input is closed'
call bash -c '"$1" "$2" >&-' - "$list" "$example"
check 'standard output closed' "$status $out $err" '2  bin/list: standard output is closed'
call bash -c '"$1" "$2" >/dev/full' - "$list" "$example"
# The program may have written everything before tee ends, or it finds the pipe broken and says so after tee.
check 'a full disk' "$status $out ${err%$'\nwrite: Broken pipe'}" "2  tee: 'standard output': No space left on device"
call bash -c '"$1" -h >/dev/full' - "$list"
check 'a usage to a full disk' "$status" 2
call bash -c '"$1" -x 2>&-' - "$list"
check 'a wrong call with standard error closed' "$status $out" '2 '

# An input that has no end: only the write that fails can end the listing.
endless() {
    sed -n 1p "$example"
    yes "$(sed -n 2p "$example")"
}
export -f endless
export example
call bash -c 'endless | "$1" | head -n 1; echo "${PIPESTATUS[1]}"' - "$list"
check 'a reader that ends early' "$out" "$heading"$'\n2'
call bash -c 'endless | "$1" >/dev/full; echo "${PIPESTATUS[1]}"' - "$list"
check 'a full disk and no end of the input' "$out" 2

{
    echo before
    "$list" "$example"
    echo after
} >"$room/file"
"$list" "$example" >>"$room/file"
check 'a file that is written on' "$(<"$room/file")" "before
$listing
after
$listing"

# A live feed, and signals.
# begin: bin/list in a group of its own, $live; its input is {feed}, its output {listed}.
begin() {
    coproc door { exec setsid env --default-signal=INT,PIPE "$list" 2>&1; }
    live=$door_PID
    exec {listed}<&"${door[0]}" {feed}>&"${door[1]}"
    eval "exec ${door[0]}<&- ${door[1]}>&-"
}
# answer: the next line, or "end" if every process that holds the output has ended.
answer() {
    local line how=0
    read -r -t 60 line <&"$listed" || how=$?
    case $how in
        0) echo "$line" ;;
        1) echo end ;;
    esac
}
# ended NAME STATUS: that nothing holds the output any more, and that the listing ended with STATUS.
ended() {
    local how=0
    check "$1: nothing is left" "$(answer)" end
    wait "$live" 2>/dev/null || how=$?
    check "$1: the status" "$how" "$2"
    exec {listed}<&-
}

begin
check 'a live feed: the heading' "$(answer)" "$heading"
sed -n 1,2p "$example" >&"$feed"
check 'a live feed: block 0' "$(answer)" '0 0 0 64 0 64 1 0'
sed -n 2p "$example" >&"$feed"
check 'a live feed: block 1' "$(answer)" '1 0 0 64 0 64 1 0'
exec {feed}>&-
check 'a live feed: its end' "$(answer)" 'END 2'
ended 'a live feed' 0

begin
check 'an interrupt: the heading' "$(answer)" "$heading"
kill -INT -- "-$live"
ended 'an interrupt' 130
exec {feed}>&-

begin
check 'the script killed: the heading' "$(answer)" "$heading"
kill -TERM "$live"
ended 'the script killed' 143
exec {feed}>&-

if command -v script >/dev/null; then
    call script -qec "'$list' >'$room/listed' 2>'$room/said'" /dev/null </dev/null
    check 'a terminal' "$status $(<"$room/listed")" "1 $heading"$'\nREFUSED INPUT 1'
    check 'a terminal: what is said' "$(<"$room/said")" \
        'bin/list: reads the terminal: a line with mode and set lead, then a line of 64 tones a block; Ctrl-D ends it'
else
    skipped=$((skipped + 1))
fi
