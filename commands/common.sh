# What ./run and ./make have in common: they answer only by a program that the Rattle toolchain (rt) has proved and built from the sources as they
# stand here, by rt's own word on every call, or, where there is no rt, by the record that the last successful build has left. Whoever reads this in
# has set: self, its own name; crate, that of its program; here, the checkout.
# shellcheck shell=bash
# shellcheck disable=SC2034,SC2154
target=$here/target
program=$target/bin/$crate
record=$target/$crate.record
# where rt leaves what it has built; the program that is run is a copy of it
built=$here/crates/$crate/out/$crate
header=$here/host/tzelmaruf.h
# no table or paper that is accepted is as long as this; the first so many bytes of a longer one tell why it is refused
enough=65536
# how long a pipe is waited for, in seconds
patience=${TZELMARUF_WAIT:-60}

say() { printf '%s: %s\n' "$self" "$*" >&2; }

# no verdict, and why
none() {
  say "$*: no verdict"
  exit 2
}

wrong_usage() {
  say "$*"
  usage >&2
  exit 2
}

digest() { sha256sum < "$1" | cut -d ' ' -f 1; }

# ---- the files

# enter FOLDER NAMES: the present folder is the one that holds the files of these names, and there is a temporary folder, with one for copies of them
enter() {
  folder=$1
  [ -n "$folder" ] || wrong_usage "no folder is named: give the folder that holds $2"
  [ "$folder" = / ] || folder=${folder%/}
  [ "$folder" != - ] || folder=./-
  [ -e "$folder" ] || none "there is no folder '$folder'"
  [ -d "$folder" ] || none "'$folder' is no folder: give the folder that holds $2"
  room=$(mktemp -d) || none 'cannot make a temporary folder'
  room=$(readlink -f -- "$room")
  trap leave EXIT
  mkdir "$room/files" || none 'cannot make a temporary folder'
  cd -- "$folder" 2> /dev/null || none "no permission to look into the folder '$folder'"
}

leave() { rm -rf -- "$room"; }

# what was taken for each file, for the record
declare -A taken

# counts_as_empty FILE WHY
counts_as_empty() {
  say "$2: it counts as empty"
  taken[$1]="counted as empty: ${2//"$folder/"/}"
}

# a pipe is read once, and not for ever: its writer may hang
take_pipe() {
  local status
  say "$folder/$1 is a pipe: waiting for what is written into it"
  timeout --foreground "$patience" head -c $((enough + 1)) -- "./$1" > "$room/files/$1"
  status=$?
  [ $status -ne 124 ] || none "nobody closed the pipe $folder/$1 within $patience seconds"
  [ $status -eq 0 ] || none "the pipe $folder/$1 could not be read"
  taken[$1]='a pipe; what came out of it has '
}

# take FILE: a copy of its own, so that what is hashed is what is checked, whatever happens to the file meanwhile
take() {
  taken[$1]=
  if [ ! -e "$1" ]; then
    counts_as_empty "$1" "there is no file $folder/$1"
  elif [ -d "$1" ]; then
    counts_as_empty "$1" "$folder/$1 is a folder"
  elif [ ! -r "$1" ]; then
    counts_as_empty "$1" "no permission to read $folder/$1"
  elif [ -p "$1" ]; then
    take_pipe "$1"
  elif ! { exec 8< "$1"; } 2> /dev/null; then
    counts_as_empty "$1" "$folder/$1 cannot be opened"
  else
    if ! head -c $((enough + 1)) <&8 > "$room/files/$1"; then
      say "copy $folder/$1 again, if need be to another stick or disk"
      none "$folder/$1 could not be read to its end"
    fi
    exec 8<&-
  fi
}

# the SHA-256 of what was checked of a file
hash_of() {
  local copy=$room/files/$1 part=
  if [ ! -e "$copy" ]; then
    echo "${taken[$1]}"
    return
  fi
  [ "$(wc -c < "$copy")" -le $enough ] || part="longer than $enough bytes; its first $enough have "
  echo "${taken[$1]}${part}SHA-256 $(head -c $enough "$copy" | sha256sum | cut -d ' ' -f 1)"
}

# ---- the program

# One digest of all that rt proves and builds from. A link is refused: rt hashes what it finds under a name, and passes links over.
sources() (
  set -o pipefail
  cd "$here" || exit
  shopt -s nullglob
  parts=(crates.txt)
  for part in crates/*/{src,specs,proofs,stdin,stdout,args,data}; do
    if [ -e "$part" ] || [ -L "$part" ]; then parts+=("$part"); fi
  done
  [ -z "$(find "${parts[@]}" ! -type f ! -type d -print -quit)" ] || exit
  find "${parts[@]}" -type f -exec sha256sum {} + | sort -k 2 | sha256sum | cut -d ' ' -f 1
)

recorded() { sed -n "s/^$1: //p" "$record" 2> /dev/null; }

# whether the program is, byte for byte, the one that the record names
is_the_recorded() {
  [ -x "$program" ] && [ -r "$program" ] && [ -n "$(recorded program)" ] && [ "$(digest "$program")" = "$(recorded program)" ]
}

is_up_to_date() { is_the_recorded && [ "$(recorded sources)" = "$now" ] && [ "$(recorded toolchain)" = "$toolchain" ]; }

# Without the stamp rt builds the program anew. The record goes first: whatever stops this call, nothing vouches for what is left.
drop() { rm -f -- "$record" && rm -f -- "$built.stamp" "$built.o" "$built" "$program"; }

# what rt says, kept; where something is proved anew a line for each crate is passed on as it comes
progress() {
  local line name='' since=$SECONDS
  while IFS= read -r line; do
    printf '%s\n' "$line"
    case $line in
      'crate '*': modules '*) name=${line#crate } name=${name%%:*} ;;
      logic=proved*) [ -z "$name" ] || say "$name proved ($((SECONDS - since)) s)" ;;
    esac
    case $line in logic=*) name='' since=$SECONDS ;; esac
  done
}

# what rt has said that tells of a fault: all but what was proved and what was read
complaints() { grep -vE '^((fn|struct|enum|trait|impl|const) .*: proved|(statements|library|crate) .*: modules .*|checked .*, [0-9]+ of [0-9]+|rt: chose --jobs .*)$' "$1"; }

# Goes by rt's word alone; what it has refused is not left to be run. `rt run` proves what has changed since it last did, builds the program, and runs it
# in the folder of its crate, where it finds neither table nor paper.
ask_rt() {
  (cd "$here/crates/$crate" && exec env -u RT_BACKEND -u RT_ALLOW_C rt run) < /dev/null 2>&1 | progress > "$room/rt.log"
  if [ "${PIPESTATUS[0]}" -ne 0 ]; then
    drop
    ! grep -q 'No space left on device' "$room/rt.log" || none "cannot write to $here/crates (No space left on device), and the program has to be built"
    complaints "$room/rt.log" >&2
    none 'rt has refused to build the program, for the reasons above'
  fi
  [ -x "$built" ] || { drop; none 'rt has left no program'; }
}

# A copy of what rt has built, put in place whole.
take_built() {
  local part=$program.$$
  if ! { mkdir -p -- "${program%/*}" && cat -- "$built" > "$part" && chmod 755 -- "$part" && mv -f -- "$part" "$program"; }; then
    rm -f -- "$part"
    none "cannot write $program"
  fi
}

write_record() {
  local part=$record.$$
  if ! { printf '%s\n' "program: $(digest "$program")" "sources: $now" "toolchain: $toolchain" > "$part" && mv -f -- "$part" "$record"; }; then
    rm -f -- "$part"
    none "cannot write $record"
  fi
}

# one call at a time proves and builds
lock() {
  exec 9>> "$target/run.lock" || none "cannot write $target/run.lock"
  command -v flock > /dev/null || return 0
  flock -n 9 || { say 'another call is at work: waiting for it'; flock 9; }
}

build() {
  local is_new=0
  lock
  toolchain=$(rt version < /dev/null | head -n 1)
  [ -n "$toolchain" ] || none 'rt does not tell its version'
  now=$(sources) || none 'the sources cannot be read, or a link is among them'
  is_up_to_date || is_new=1
  if [ $is_new -eq 1 ] || [ ! -e "$built.stamp" ]; then say 'proving and building the program, which takes some minutes the first time'; fi
  [ $is_new -eq 0 ] || drop || none "cannot remove what an earlier build has left in $target"
  ask_rt
  if [ $is_new -eq 0 ] && { ! cmp -s -- "$built" "$program" || ! is_up_to_date; }; then
    say 'the program is not the one that was built here: building it anew'
    is_new=1
    drop || none "cannot remove what an earlier build has left in $target"
    ask_rt
  fi
  [ $is_new -eq 1 ] || return 0
  take_built
  [ "$(sources)" = "$now" ] || { drop; none 'the sources changed while the program was built from them'; }
  write_record
}

# go_by_record WHY: without rt's word the program runs only if the record of a successful build names it, and the sources as they are now
go_by_record() {
  now=$(sources) || none 'the sources cannot be read, or a link is among them'
  [ -x "$program" ] || none "$1, and there is no program from an earlier build"
  [ -f "$record" ] || none "$1, and no record tells what the program was built from"
  is_the_recorded || none "$1, and the program is not the one that was built"
  [ "$(recorded sources)" = "$now" ] || none "$1, and the sources have changed since the program was built"
  toolchain=$(recorded toolchain)
}

# why nothing can be written to the checkout; nothing, if it can. rt writes a little even where all is unchanged.
write_trouble() {
  local trial=$target/.trial.$$ said
  if ! said=$({ mkdir -p -- "$target" && head -c 262144 /dev/zero > "$trial"; } 2>&1); then
    said=${said##*: }
    echo "${said:-the write fails}"
  fi
  rm -f -- "$trial" 2> /dev/null
}

ready() {
  local trouble
  command -v rt > /dev/null || { go_by_record "there is no command 'rt' on the PATH"; return; }
  trouble=$(write_trouble)
  if [ -z "$trouble" ]; then
    build
  else
    go_by_record "cannot write to $target ($trouble)"
    say "cannot write to $target ($trouble): going by the record of the last build"
  fi
}

# ---- the verdict

# Puts the copies to the program, with nothing of the caller's environment. What it prints is held against is_legal, and a refusal's number against the
# list of them.
judge() {
  local status
  (cd "$room/files" && exec env -i "$program") < /dev/null > "$room/line" 2> "$room/said" 9>&-
  status=$?
  [ ! -s "$room/said" ] || cat "$room/said" >&2
  [ $status -eq 0 ] || none "the program ended with status $status"
  is_the_recorded || none 'the program was changed while it ran'
  line=$(tr '\0' '?' < "$room/line")
  is_legal "$line" || none "the program has printed '$line', which is no verdict"
  [ "$(wc -c < "$room/line")" -eq $((${#line} + 1)) ] || none 'the program has printed more than a line, or no whole one'
  read -r verdict number place <<< "$line"
  words=
  if [ "$verdict" = REFUSED ]; then
    words=$(meaning "$number")
    [ -n "$words" ] || none "the program has printed '$line', and $header has no such number"
  fi
}

# the words of a refusal, from the one list of them
meaning() { sed -n "s/^ *X($1, [A-Z_]*, \"\(.*\)\").*/\1/p" "$header"; }

counted() { if [ "$1" -eq 1 ]; then echo "1 $2"; else echo "$1 $2s"; fi; }

# record_at FILE PLACE
record_at() { if [ "$2" -eq 0 ]; then echo "$1, record 0, which is the header"; else echo "$1, record $2"; fi; }

# records_read FILE PLACE
records_read() { echo "$1, after its $(counted "$2" record)"; }

version() { sed -n 's/^#define TZELMARUF_VERSION "\(.*\)"$/\1/p' "$header"; }

# block PAPER: for a release record, with what is said of the paper
block() {
  printf '%-10s %s\n' verdict: "$line" date: "$(date -u +%Y-%m-%dT%H:%M:%SZ)" version: "tzelmaruf $(version)" toolchain: "$toolchain" \
    table.tab: "$(hash_of table.tab)" proof.prf: "$1" program: "SHA-256 $(recorded program)" sources: "SHA-256 $now"
}

print_version() {
  local toolchain=
  ! command -v rt > /dev/null || toolchain=$(rt version < /dev/null | head -n 1)
  [ -n "$toolchain" ] || toolchain=$(recorded toolchain)
  printf '%s\n' "tzelmaruf $(version)" "toolchain ${toolchain:-unknown: no rt, and nothing built}"
}
