#!/usr/bin/env bash
# Calls ./run as a first-time user may: good and wrong names, odd files, another folder. Then, on a copy of the checkout and with stand-ins for rt,
# as nobody should: a program that its build has rejected, changed sources, another program, no toolchain, no room to write. The last line is
# 'N passed, M failed'.
set -u
export LC_ALL=C
cd "$(dirname "$0")/.." || exit 1
here=$PWD
program=$here/target/bin/tzelmaruf
room=$(mktemp -d) && trap 'chmod -R u+rwX "$room"; rm -rf "$room"' EXIT
passed=0 failed=0
command -v gcc > /dev/null || { echo "run: no command 'gcc' on the PATH"; echo "0 passed, 1 failed"; exit 1; }
[ -x "$program" ] || { echo "run: there is no $program: build it with 'commands/build tzelmaruf'"; echo "0 passed, 1 failed"; exit 1; }

ok() { passed=$((passed + 1)); }
bad() { failed=$((failed + 1)); echo "run: $*"; }

# is WHAT EXPECTED GOT
is() { if [ "$2" = "$3" ]; then ok; else bad "$1: '$3', expected '$2'"; fi; }

# run NAME STATUS LINE NOTE COMMAND..: what the command prints, its exit status, and a part of what it says besides
run() {
  local name=$1 status=$2 line=$3 note=$4 got said is_right=0
  shift 4
  got=$("$@" 2> "$room/said")
  [ $? -eq "$status" ] && is_right=1
  said=$(cat "$room/said")
  [ "$got" = "$line" ] || is_right=0
  case $said in *"$note"*) ;; *) is_right=0 ;; esac
  if [ $is_right -eq 1 ]; then ok; else bad "$name: printed '$got', said '$said'; expected $status, '$line' and '$note'"; fi
}

# what was said last has, or has not, a line that begins so
has() { if grep -q -- "^$2" "$room/said"; then ok; else bad "$1: no line '$2' in '$(cat "$room/said")'"; fi; }
has_not() { if grep -q -- "^$2" "$room/said"; then bad "$1: a line '$2' in '$(cat "$room/said")'"; else ok; fi; }

# the exit status that goes with a line
status_of() {
  case $1 in
    EMPTY*) echo 0 ;;
    REFUSED*) echo 1 ;;
    REACHED*) echo 3 ;;
  esac
}

# ---- the examples; the first call may have to build, the others are silent but for what the line means
run 'first call' 0 'EMPTY 8' 'accepted: no run of the table enters a final location' ./run examples/empty
for folder in examples/*/expected; do
  folder=${folder%expected}
  expected=$(cat "$folder/expected")
  run "$folder" "$(status_of "$expected")" "$expected" '' ./run "$folder"
  has_not "$folder" 'rt: '
  has_not "$folder" 'run: .*prov'
done

# every command but rt: a call without it goes by the record that the first call has left, and is quicker
mkdir "$room/bare"
IFS=: read -ra folders <<< "$PATH"
for folder in "${folders[@]}"; do
  for tool in "$folder"/*; do
    case ${tool##*/} in rt) ;; *) [ ! -x "$tool" ] || [ -e "$room/bare/${tool##*/}" ] || ln -s "$tool" "$room/bare" ;; esac
  done
done
quick() { PATH=$room/bare timeout 60 ./run "$@"; }

# ---- names
run 'no folder' 2 '' 'usage: ./run FOLDER' ./run
has 'no folder' 'run: no folder is named'
run 'an empty name' 2 '' 'usage: ./run FOLDER' ./run ''
run 'a record of no folder' 2 '' 'usage: ./run FOLDER' ./run --record
run 'two folders' 2 '' 'one folder at a time' ./run examples/empty examples/reached
run 'no such folder' 2 '' "there is no folder 'nowhere'" ./run nowhere
run 'a file' 2 '' 'is no folder' ./run examples/empty/table.tab
run 'unknown option' 2 '' "there is no folder '--fast'" ./run --fast
mkdir -p "$room/two words/-x" "$room/two words/-" && cp examples/empty/*.??? "$room/two words/-x" && cp examples/empty/*.??? "$room/two words/-"
run 'spaces' 0 'EMPTY 8' '' ./run "$room/two words/-x"
beside() { (cd "$room/two words" && "$here/run" "$@"); }
run 'a folder -' 0 'EMPTY 8' '' beside -
run 'a folder -x' 0 'EMPTY 8' '' beside -- -x
# another folder of that name, in which a shell with CDPATH looks first, has other files
mkdir -p "$room/decoy/-x" && cp examples/refused/*.??? "$room/decoy/-x"
elsewhere() { (cd "$room/two words" && CDPATH=$room/decoy "$here/run" -x); }
run 'CDPATH' 0 'EMPTY 8' '' elsewhere
ln -s "$here/run" "$room/link"
run 'by a link' 0 'EMPTY 8' '' "$room/link" examples/empty
full() { ./run examples/empty > /dev/full; }
run 'full disk' 2 '' 'No space left' full

# ---- help and version
statuses() { sed -nE 's/^  ([0-9])   (EMPTY|REFUSED|REACHED|no verdict).*/\1 \2/p' | tr '\n' ';'; }
for option in -h --help; do
  ./run $option > "$room/help" 2> "$room/said"
  is "status of $option" 0 $?
  is "what $option says besides" '' "$(cat "$room/said")"
  is "the statuses that $option names" '0 EMPTY;1 REFUSED;2 no verdict;3 REACHED;' "$(statuses < "$room/help")"
  for word in 'usage: ./run FOLDER' --record --version --help -h table.tab proof.prf 'EMPTY rows' 'REACHED steps' 'REFUSED number place' TZELMARUF_WAIT; do
    if grep -qF -- "$word" "$room/help"; then ok; else bad "$option does not name $word"; fi
  done
done
release=$(sed -n 's/^#define TZELMARUF_VERSION "\(.*\)"$/\1/p' host/tzelmaruf.h)
run 'version' 0 "tzelmaruf $release
toolchain $(rt version)" '' ./run --version

# ---- odd files
mkdir -p "$room/folder/table.tab" "$room/folder/proof.prf"
run 'folders for files' 1 'REFUSED 1 0' 'is a folder: it counts as empty' quick "$room/folder"
run 'no files' 1 'REFUSED 1 0' 'there is no file' quick tests
run 'no paper' 1 'REFUSED 7 0' 'there is no file tests/program/paper-missing/proof.prf: it counts as empty' quick tests/program/paper-missing
has 'no paper' 'run: if the supplier has sent no paper, ./make makes a list from the table alone$'
run 'no table' 1 'REFUSED 1 0' 'there is no file tests/program/table-missing/table.tab: it counts as empty' quick tests/program/table-missing
has_not 'no table' 'run: if the supplier has sent no paper'
impatient() { TZELMARUF_WAIT=1 quick "$@"; }
# A pipe, with a writer that comes and one that hangs. Nobody waits for ever: should ./run not open the pipe, its writer would.
mkfifo "$room/two words/table.tab" && cp examples/empty/proof.prf "$room/two words"
timeout 30 dd if=examples/empty/table.tab of="$room/two words/table.tab" status=none &
run 'a pipe' 0 'EMPTY 8' 'is a pipe' quick "$room/two words"
wait
timeout 10 dd if=<(sleep 9) of="$room/two words/table.tab" status=none &
writer=$!
run 'a pipe whose writer hangs' 2 '' 'nobody closed the pipe' impatient "$room/two words"
kill $writer 2> /dev/null
wait
run 'a pipe without a writer' 2 '' 'nobody closed the pipe' impatient "$room/two words"
mkdir "$room/device" && cp examples/empty/table.tab "$room/device" && ln -s /dev/zero "$room/device/proof.prf"
run 'a device without end' 1 'REFUSED 7 0' '' quick "$room/device"
# a device that everyone may read and nobody can open: the terminal, where there is none
ln -sf /dev/tty "$room/device/proof.prf"
apart() { PATH=$room/bare timeout 60 setsid -w ./run "$@"; }
run 'a device that cannot be opened' 1 'REFUSED 7 0' 'cannot be opened: it counts as empty' apart "$room/device"
# a file that can be opened and not be read: the first bytes of a process's memory
ln -sf /proc/self/mem "$room/device/proof.prf"
run 'a file that cannot be read' 2 '' 'could not be read to its end' quick "$room/device"
# A bad stick: a read of one of the files fails (failing_read.c), at its first byte, in its middle, and where it has been read whole and its end is asked
# for. There is no verdict then, and no record; one byte later the failure is never met.
gcc -O2 -std=c99 -pedantic -Wall -Wextra -Werror -shared -fPIC -o "$room/stick.so" tests/failing_read.c || bad 'tests/failing_read.c does not build'
# stick FILE BYTE ARGUMENTS..
stick() { LD_PRELOAD=$room/stick.so STICK_FILE=$1 STICK_BYTE=$2 quick "${@:3}"; }
for file in table.tab proof.prf; do
  end=$(wc -c < examples/empty/$file)
  for byte in 0 1 20 $((end - 1)) "$end"; do
    run "$file, of which a read fails at byte $byte" 2 '' "run: examples/empty/$file could not be read to its end: no verdict" stick $file "$byte" examples/empty
  done
  run "$file, of which a read fails, for a record" 2 '' "could not be read to its end: no verdict" stick $file "$end" --record examples/empty
  run "$file, of which no read fails" 0 'EMPTY 8' '' stick $file $((end + 1)) examples/empty
done
# the longest paper that is accepted: a copy that is cut short would be refused
mkdir "$room/long" && tests/longest.sh "$room/long"
run 'the longest run list' 3 'REACHED 2048' 'do not load the library' quick "$room/long"
head -c 100000 /dev/zero >> "$room/long/proof.prf"
run 'a longer one' 1 'REFUSED 9 2049' 'proof.prf, after its 2049 records' quick "$room/long"

# ---- the words: of each refusal its meaning, its place and what to do
for folder in tests/refusals/*/; do
  quick "$folder" > "$room/line" 2> "$room/said"
  has "$folder" "run: refused: $(cat "$folder/words") ($(cat "$folder/where"))\$"
  has "$folder" 'run: nothing is shown, so do not load the library; .*send both files back to the supplier with this line$'
  case $(basename "$folder") in
    *-cut | *-long) has "$folder" 'run: .*copy both files again and check once more' ;;
    *) has_not "$folder" 'run: .*copy both files again' ;;
  esac
done

# ---- the record: what is hashed is what was checked
field() { sed -n "s/^$1: *//p" "$room/record"; }
sha() { sha256sum | cut -d ' ' -f 1; }
quick --record examples/refused > "$room/record" 2> "$room/said"
is 'status with a record' 1 $?
is 'the line before a record' 'REFUSED 11 2' "$(head -n 1 "$room/record")"
is 'fields of a record' 'verdict date version toolchain table.tab proof.prf program sources ' "$(sed -n 's/^\([a-z.]*\): .*/\1/p' "$room/record" | tr '\n' ' ')"
is 'verdict in a record' 'REFUSED 11 2' "$(field verdict)"
is 'version in a record' "tzelmaruf $release" "$(field version)"
is 'toolchain in a record' "$(rt version)" "$(field toolchain)"
is 'table in a record' "SHA-256 $(sha < examples/refused/table.tab)" "$(field table.tab)"
is 'paper in a record' "SHA-256 $(sha < examples/refused/proof.prf)" "$(field proof.prf)"
is 'program in a record' "SHA-256 $(sha < "$program")" "$(field program)"
# the command in README.md
sources=$(bash -c "$(sed -n 's/^    \(find crates.txt .*\)/\1/p' README.md)" | cut -d ' ' -f 1)
is 'sources in a record' "SHA-256 $sources" "$(field sources)"
is 'date in a record' 1 "$(field date | grep -cE '^20[0-9]{2}(-[0-9]{2}){2}T([0-9]{2}:){2}[0-9]{2}Z$')"
quick --record "$room/folder" > "$room/record" 2> "$room/said"
is 'a folder in a record' 'counted as empty: table.tab is a folder' "$(field table.tab)"
quick --record tests > "$room/record" 2> "$room/said"
is 'no file in a record' 'counted as empty: there is no file proof.prf' "$(field proof.prf)"
quick --record "$room/long" > "$room/record" 2> "$room/said"
is 'a long file in a record' "longer than 65536 bytes; its first 65536 have SHA-256 $(head -c 65536 "$room/long/proof.prf" | sha)" "$(field proof.prf)"
timeout 30 dd if=examples/empty/table.tab of="$room/two words/table.tab" status=none &
quick --record "$room/two words" > "$room/record" 2> "$room/said"
wait
is 'a pipe in a record' "a pipe; what came out of it has SHA-256 $(sha < examples/empty/table.tab)" "$(field table.tab)"

# ---- a copy of the checkout, and stand-ins for rt
copy="$room/a copy"
mkdir -p "$copy/host" "$room/stub"
cp -r run commands crates.txt "$copy" && cp host/tzelmaruf.h "$copy/host"
# all of the crates but what rt has built of them
find crates -regex 'crates/[^/]*/out' -prune -o -type f -exec cp --parents -t "$copy" {} +
cp "$program" "$room/stub/program"
cat > "$room/stub/rt" << 'END'
#!/usr/bin/env bash
# A stand-in for rt, in the folder of the program's crate, which acts as the file 'way' beside it says. As rt does it goes by the sources' content, and
# of what it built by the stamp, and tells on standard error what it proves; what the program prints, where it finds no files, is on standard output.
stub=$(dirname "$0")
[ "$1" != version ] || { cat "$stub/version"; exit; }
echo "$* in ${PWD##*/}" >> "$stub/calls"
mkdir -p out
now=$(cd ../.. && find crates.txt crates -path '*/out' -prune -o -type f -exec sha256sum {} + | sort | sha256sum)
put() { rm -f out/tzelmaruf; cp "$1" out/tzelmaruf; chmod +x out/tzelmaruf; }
proved() { printf '%s\n' "fn $1::main: proved" "crate $1: modules loaded=1 checked=2" 'logic=proved functions=1 sum=0' >&2; }
ends() { echo 'rt: running out/tzelmaruf; to give it other input, run that file yourself' >&2; echo 'REFUSED 1 0'; exit "$1"; }
case $(cat "$stub/way") in
  fails) printf '%s\n' 'fn tables::open: proved' 'fn tables::answer: no proof: expected answers' 'logic=not-proved' >&2; exit 1 ;;
  leaves) proved tzelmaruf; put "$stub/program"; ends 1 ;;
  nothing) proved tzelmaruf; ends 0 ;;
  other) proved tzelmaruf; put "$stub/other"; ends 0 ;;
  edits) proved tzelmaruf; put "$stub/program"; echo '// more' >> ../tables/src/lib.rt; ends 0 ;;
  full) echo 'rattle: cannot write the rlib: No space left on device (os error 28)' >&2; exit 2 ;;
  slow) sleep 1 ;;
esac
if [ "$(cat out/tzelmaruf.stamp 2> /dev/null)" = "$now" ]; then
  echo 'rt: nothing has changed since the last proved build, by out/tzelmaruf.stamp, so nothing is checked now' >&2
else
  proved tables
  proved tzelmaruf
  put "$stub/program"
  echo "$now" > out/tzelmaruf.stamp
fi
ends 0
END
chmod +x "$room/stub/rt"
echo 'stub kit 1' > "$room/stub/version"
# with_rt WAY and without_rt: the copy's ./run
with_rt() {
  echo "$1" > "$room/stub/way"
  shift
  PATH=$room/stub:$room/bare "$copy/run" "${@:-examples/empty}"
}
without_rt() { PATH=$room/bare "$copy/run" "${@:-examples/empty}"; }
made="$copy/target/bin/tzelmaruf" left="$copy/crates/tzelmaruf/out/tzelmaruf"
gone() {
  if [ ! -e "$made" ] && [ ! -e "$left" ] && [ ! -e "$left.stamp" ] && [ ! -e "$copy/target/tzelmaruf.record" ]; then ok; else bad "$1: a program or a record is left"; fi
}
# prints TEXT: a program that does
prints() { printf '#!/bin/sh\nprintf "%s"\n' "$1"; }

run 'no rt, nothing built' 2 '' "no command 'rt'" without_rt
run 'rt fails at once' 2 '' 'rt has refused' with_rt fails
has 'rt fails at once' 'fn tables::answer: no proof: expected answers$'
has_not 'rt fails at once' 'fn tables::open'
gone 'rt fails at once'
is 'what rt is asked for' 'run in tzelmaruf' "$(cat "$room/stub/calls")"
run 'no space for the build' 2 '' 'No space left on device), and the program has to be built' with_rt full
gone 'no space for the build'
run 'rt says ok and leaves no program' 2 '' 'rt has left no program' with_rt nothing
run 'rt builds' 0 'EMPTY 8' 'proving and building' with_rt good
has 'rt builds' 'run: tables proved ([0-9]* s)$'
has 'rt builds' 'run: tzelmaruf proved ([0-9]* s)$'
has_not 'rt builds' 'fn '
run 'nothing has changed' 0 'EMPTY 8' '' with_rt good
has_not 'nothing has changed' 'rt: '
has_not 'nothing has changed' 'run: .*prov'
run 'no rt, built' 0 'EMPTY 8' '' without_rt
run 'no rt, version' 0 "tzelmaruf $release
toolchain stub kit 1" '' without_rt --version

# a program that its own build has rejected: all is built, a source changes, rt leaves a program and fails
echo '// more' >> "$copy/crates/tables/src/lib.rt"
run 'a rejected program' 2 '' 'rt has refused' with_rt leaves
gone 'a rejected program'
run 'a rejected program, once more' 2 '' 'rt has refused' with_rt leaves
run 'a rejected program, without rt' 2 '' 'there is no program' without_rt
run 'a rejected program, built in the end' 0 'EMPTY 8' 'proving and building' with_rt good
# the same where nothing has changed, and rt rejects all the same
run 'rt changes its mind' 2 '' 'rt has refused' with_rt fails
gone 'rt changes its mind'
# what a failed build left, put back with the times of a good one
run 'built again' 0 'EMPTY 8' '' with_rt good
rm "$copy/target/tzelmaruf.record"
run 'a program without a record' 2 '' 'no record tells' without_rt
run 'a program without a record, and rt' 0 'EMPTY 8' 'proving and building' with_rt good

# a changed source of an old time, and of a new one
for time in '2001-01-01' '+1 hour'; do
  echo '// more' >> "$copy/crates/region_lists/src/region_list.rt"
  touch -d "$time" "$copy/crates/region_lists/src/region_list.rt"
  run "a source of $time, without rt" 2 '' 'the sources have changed' without_rt
  run "a source of $time" 0 'EMPTY 8' 'proving and building' with_rt good
  echo '// still more' >> "$copy/crates/region_lists/src/region_list.rt"
  touch -d "$time" "$copy/crates/region_lists/src/region_list.rt"
  run "a source of $time that is not proved" 2 '' 'rt has refused' with_rt fails
  run "a source of $time, in the end" 0 'EMPTY 8' 'proving and building' with_rt good
done
touch "$copy/crates/region_lists/src/region_list.rt"
run 'a new time alone' 0 'EMPTY 8' '' with_rt good
has_not 'a new time alone' 'run: proving'
echo 'stub kit 2' > "$room/stub/version"
run 'another toolchain' 0 'EMPTY 8' 'proving and building' with_rt good
run 'sources that change while they are built' 2 '' 'the sources changed' with_rt edits < <(rm -f "$copy/target/tzelmaruf.record")
gone 'sources that change while they are built'
run 'built again' 0 'EMPTY 8' '' with_rt good
mv "$copy/crates/tables/src/lib.rt" "$room/lib.rt" && ln -s "$room/lib.rt" "$copy/crates/tables/src/lib.rt"
run 'a link among the sources' 2 '' 'a link is among them' with_rt good
rm "$copy/crates/tables/src/lib.rt" && mv "$room/lib.rt" "$copy/crates/tables/src/lib.rt"

# another program in the place of the one that was built
run 'built again' 0 'EMPTY 8' '' with_rt good
prints 'CLEAR 8\n' > "$made"
run 'a CLEAR program, without rt' 2 '' 'is not the one that was built' without_rt
run 'a CLEAR program' 0 'EMPTY 8' 'proving and building' with_rt good
rm "$made"
run 'the program is gone' 0 'EMPTY 8' 'proving and building' with_rt good
rm "$copy/target/tzelmaruf.record" && prints 'EMPTY 9\n' > "$made"
run 'another program, and no record' 0 'EMPTY 8' 'proving and building' with_rt good

# what rt has built is gone, as after `rt ci`, and it builds the same once more; another program in its place
rm "$left" "$left.stamp"
run 'what rt has built is gone' 0 'EMPTY 8' 'proving and building' with_rt good
prints 'CLEAR 8\n' > "$left"
run 'another program where rt leaves it' 0 'EMPTY 8' 'is not the one that was built here: building it anew' with_rt good

# rt itself leaves a program that prints something else
for text in 'CLEAR 8\n' 'EMPTY\n' 'EMPTY 08\n' 'EMPTY 8' 'EMPTY 8\nEMPTY 8\n' ' EMPTY 8\n' 'EMPTY 8 \n' 'EMPTY -1\n' 'REFUSED 11\n' 'REFUSED 0 0\n' \
  'REFUSED 18 0\n' 'REFUSED 20 0\n' 'REFUSED 21 0\n' 'REFUSED 1 0 0\n' 'REACHED\n' 'empty 8\n' '' '\n' 'EMPTY 8\n\n' 'EMPTY 8\000\n'; do
  prints "$text" > "$room/stub/other"
  run "a program that prints '$text'" 2 '' 'no verdict' with_rt other
done
printf '#!/bin/sh\necho EMPTY 8\nexit 1\n' > "$room/stub/other"
run 'a program that fails' 2 '' 'ended with status 1' with_rt other
prints 'REFUSED 11 2\n' > "$room/stub/other"
run 'a program that prints a verdict' 1 'REFUSED 11 2' '' with_rt other

# without the file that it shares with ./make
mv "$copy/commands" "$room/commands"
run 'a part of the checkout is gone' 2 '' 'commands/common.sh: No such file or directory' with_rt good
mv "$room/commands" "$copy/commands"

# two calls at once: one builds, the other waits for it
rm -rf "$copy/target" "$room/stub/calls"
echo slow > "$room/stub/way"
PATH=$room/stub:$room/bare "$copy/run" examples/empty > "$room/first" 2> /dev/null &
PATH=$room/stub:$room/bare "$copy/run" examples/empty > "$room/second" 2> /dev/null
wait
is 'two calls at once' 'EMPTY 8 EMPTY 8' "$(cat "$room/first") $(cat "$room/second")"

# nothing can be written: the record tells, as long as nothing need be built
limited() { (ulimit -f 128 && with_rt good); }
run 'a full checkout' 0 'EMPTY 8' 'going by the record' limited
cp "$copy/target/tzelmaruf.record" "$room" && echo 'program: 0' > "$copy/target/tzelmaruf.record"
run 'a full checkout, and something to build' 2 '' 'cannot write to' limited
is 'lines about a full checkout' 1 "$(wc -l < "$room/said")"
mv "$room/tzelmaruf.record" "$copy/target"
chmod -R a+rX "$room" && chmod -R a-w "$copy"
# root writes where it may not: it tries as nobody
other_user=()
[ "$(id -u)" -ne 0 ] || other_user=(setpriv --reuid=65534 --regid=65534 --clear-groups)
read_only() { TMPDIR=/tmp PATH=$room/stub:$room/bare "${other_user[@]}" "$copy/run" "$room/two words/-x"; }
mkdir -p "$room/shut" && cp examples/empty/*.??? "$room/shut" && chmod 000 "$room/shut/table.tab"
shut() { TMPDIR=/tmp PATH=$room/stub:$room/bare "${other_user[@]}" "$copy/run" "$room/shut"; }
echo fails > "$room/stub/way"
run 'a read-only checkout' 0 'EMPTY 8' 'Permission denied): going by the record' read_only
run 'no permission to read a file' 1 'REFUSED 1 0' 'no permission to read' shut
chmod 000 "$room/shut"
run 'no permission to look into a folder' 2 '' 'no permission to look into' shut
chmod u+w "$copy/target" "$copy/target/tzelmaruf.record" && rm "$copy/target/tzelmaruf.record" && chmod a-w "$copy/target"
run 'a read-only checkout without a record' 2 '' 'cannot write to' read_only
is 'lines about a read-only checkout' 1 "$(wc -l < "$room/said")"

echo "$passed passed, $failed failed"
[ "$failed" -eq 0 ]
