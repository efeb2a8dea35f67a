# bin/build, in a tree of its own: an rt that proves nothing makes a program that prints its input.
# shellcheck shell=bash disable=SC2016,SC2086,SC2154
tree=$room/tree
mkdir -p "$tree/crates/list/src" "$tree/crates/olivia/src" "$room/path"
cp -r bin "$tree/bin"
touch "$tree/crates.txt" "$tree/crates/list/src/main.rt" "$tree/crates/list/src/other.rt"
list=$tree/bin/list
PATH=$room/path:$PATH

# It counts its calls, takes all input that it can get, writes half of what it makes, does what the file "during" says, and writes it all.
cat >"$room/path/rt" <<'RT'
#!/usr/bin/env bash
set -eu
echo "$*" >>"$room/calls"
cat >/dev/null
case $1 in
    run) made=$PWD/out/list ;;
    lib) made=$PWD/out/libolivia.a ;;
esac
cd ../..
mkdir -p "$(dirname "$made")"
echo '#!/bin/sh' >"$made"
chmod +x "$made"
. "$room/during"
echo 'cat; echo END 0' >>"$made"
RT
chmod +x "$room/path/rt"

# during WORDS: what happens in the next proofs. calls: how many there were since the last question.
during() { echo "$1" >"$room/during"; }
calls() {
    wc -l <"$room/calls"
    : >"$room/calls"
}
# edit COMMAND...: later than any stamp so far, as the times of files tell it.
edit() {
    sleep 0.05
    (cd "$tree" && "$@")
}
# begins MADE LOG: what is said at the beginning of a proof.
begins() {
    echo "bin/build: proves and builds target/$1, which takes a minute or two at first; the report is $tree/target/$2"
}
begins=$(begins front/list list.log)
: >"$room/calls"
during ''

call "$list" "$room/none"
check 'no such file: no proof' "$status $(calls)" '2 0'
call bash -c '"$1" >&-' - "$list"
check 'standard output closed: no proof' "$status $(calls)" '2 0'
call "$list" <<<fed
check 'first use' "$status $out $err $(calls)" "0 fed"$'\n'"END 0 $begins 1"
call "$list" <<<fed
check 'second use' "$status $out $err $(calls)" "0 fed"$'\nEND 0  0'
echo '#!/bin/sh' >"$tree/crates/list/out/list"
call "$list" <<<fed
check 'half a program where rt writes it' "$status $out $err $(calls)" "0 fed"$'\nEND 0  0'

# What the program does decides the status.
for case in '0 echo END 1' '1 echo REFUSED 7 0' '2 echo END 1; echo 1 0 0 64 0 64 1 0' '2 echo ENDED' '2 true' \
    '2 echo END 1; exit 1' '2 echo END 1; kill -KILL $$' '2 echo REFUSED 7 0; kill -KILL $$'; do
    printf '#!/bin/sh\n%s\n' "${case#* }" >"$tree/target/front/list"
    call "$list" </dev/null
    check "a program: ${case#* }" "$status" "${case%% *}"
done

for change in 'touch crates/list/src/main.rt' 'rm crates/list/src/other.rt' 'touch crates.txt' 'rm -r target' 'rm target/front/list'; do
    edit $change
    call "$list" <<<fed
    check "after $change" "$status $out $err $(calls)" "0 fed"$'\n'"END 0 $begins 1"
    call "$list" <<<fed
    check "after $change, again" "$status $out $err $(calls)" "0 fed"$'\nEND 0  0'
done

# A proof with an edit in its midst.
edit touch crates.txt
during 'sleep 0.05; touch crates/list/src/main.rt'
call "$list" <<<fed
check 'an edit during the proof' "$status $out $(calls)" "0 fed"$'\nEND 0 1'
during ''
call "$list" <<<fed
check 'after an edit during the proof' "$status $out $(calls)" "0 fed"$'\nEND 0 1'

# A proof that fails, with a program of before at hand and without.
fails="$begins"$'\n'"$(seq 11 30)"$'\n'"bin/build: rt run failed; the whole report is $tree/target/list.log"
for change in 'touch crates.txt' 'rm -r target'; do
    edit $change
    during 'seq 30; exit 1'
    call "$list" <<<fed
    check "a proof that fails, after $change" "$status $out $err $(calls)" "2  $fails 1"
    call "$list" <<<fed
    check "the same proof again, after $change" "$status $out $err $(calls)" "2  $fails 1"
    check "the report of the last proof, after $change" "$(<"$tree/target/list.log")" "$(seq 30)"
    during 'kill -INT 0'
    call setsid -w "$list" <<<fed
    check "an interrupted proof, after $change" "$status $out $(calls) $(find "$tree/target/front" -name 'new*')" '130  1 '
    during 'rm -r target'
    call "$tree/bin/build" list
    check "a proof whose folder is removed, after $change" "$status $out $(calls)" '2  1'
    during ''
    call "$list" <<<fed
    check "a proof that is mended, after $change" "$status $out $err $(calls)" "0 fed"$'\n'"END 0 $begins 1"
    check "nothing else is left, after $change" "$(ls "$tree/target" "$tree/target/front")" \
        "$tree/target:"$'\nfront\nlist.log\nlist.stamp\n\n'"$tree/target/front:"$'\nlist'
done

# Two calls at once: the first proof waits until the second call has said that it waits.
mkfifo "$room/begun" "$room/go" "$room/waits"
exec {begun}<>"$room/begun" {go}<>"$room/go" {waits}<>"$room/waits"
edit rm -r target
during 'echo >"$room/begun"; read -r -t 60 <"$room/go"'
"$list" <<<first >"$room/first" 2>/dev/null &
first=$!
read -r -t 60 <&"$begun"
"$list" <<<second >"$room/second" 2>&"$waits" &
second=$!
read -r -t 60 line <&"$waits" || line=nothing
check 'two calls: the second says that it waits' "$line" 'bin/build: waits for another call, which proves and builds'
echo >&"$go"
wait "$first" "$second" || true
check 'two calls: both whole, one proof' "$(<"$room/first") $(<"$room/second") $(calls)" $'first\nEND 0 second\nEND 0 1'

# A file system with no locks.
printf '#!/bin/sh\nexit 1\n' >"$room/path/flock"
chmod +x "$room/path/flock"
edit touch crates.txt
during ''
call "$list" <<<fed
check 'no lock to be had' "$status $out $(calls)" "0 fed"$'\nEND 0 1'
rm "$room/path/flock"

# The library.
library=$tree/bin/library
begins=$(begins staticlib/libolivia.a olivia.log)
call "$library"
check 'the library: first use' "$status $out $err $(<"$room/calls") $(calls)" "0  $begins lib 1"
call "$library"
check 'the library: second use' "$status $out $err $(calls)" '0   0'
edit touch crates/list/src/main.rt
during 'exit 1'
call "$library"
check 'the library: a proof that fails' "$status $out $(calls)" '2  1'
during ''
call "$library"
check 'the library: after that' "$status $out $err $(calls)" "0  $begins 1"
ln -s "$tree/bin/build" "$room/a builder"
call "$room/a builder" library
check 'the library: by a link' "$status $out $err $(calls)" '0   0'
for words in '' 'olivia' 'list library'; do
    call "$tree/bin/build" $words
    check "wrong call of bin/build: $words" "$status $out $err" '2  usage: bin/build list | bin/build library'
done
call "$library" more
check 'wrong call of bin/library' "$status $out $err" '2  usage: bin/build list | bin/build library'
