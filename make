#!/usr/bin/env bash
# Makes the paper for a table that came without one: ./make FOLDER. The list is put into the folder only when it is whole, and what is printed is
# signed, so it answers only by a program that the Rattle toolchain (rt) has proved and built from the sources as they stand here (commands/common.sh).
set -u
unset CDPATH
export LC_ALL=C
self='make'
crate=maker
here=$(dirname -- "$(readlink -f -- "$0")")
# shellcheck source=commands/common.sh
. "$here/commands/common.sh" || exit 2

usage() {
  cat << 'END'
usage: ./make FOLDER            make a region list from the table table.tab in FOLDER, and put it there as proof.prf
       ./make --force FOLDER    the same where there is a proof.prf already: the new list takes its place
       ./make --record FOLDER   the same as without, with a block for a release record after the line
       ./make --version         the release, and the toolchain that built the program
       ./make --help            this text (also -h)

One line is printed on standard output:
  MADE rows              no run of the table enters a final location, and proof.prf is a list of so many rows that shows it
  REFUSED 21 0           a run of the table enters a final location, the library is bad
  REFUSED 20 0           the list would have more than 4,096 rows; this says nothing of final locations
  REFUSED number place   the table is none (1 to 6); the place is the record's number in it

A list is written only with MADE, and only whole: it is put in place by one move. A proof.prf that is there already is left as it is without --force;
with --force it is left as it is unless the line is MADE. With --record the block follows on standard output: verdict, date, release, toolchain, and
the SHA-256 of the table as it was read, of the list, of the program and of its sources. What the line means and what to do, notes and progress are
on standard error.

Exit status, as that of ./run:
  0   MADE
  1   REFUSED by any number but 21
  2   no verdict, and no line: wrong usage, a proof.prf is there, the folder cannot be written to, the program could not be built or is not the one
      that was, the table could not be read to its end
  3   REFUSED 21: a final location is entered

A table that cannot be opened counts as empty, and a note says so. A pipe is waited for 60 seconds, or as many as TZELMARUF_WAIT says. The first call
proves and builds the program with the Rattle toolchain (rt), which takes some minutes. Without rt the program runs as long as neither it nor its
sources have changed since they were built.
END
}

# ---- the list

# what the program writes, in the folder that it runs in, and the name under which the list is brought into the folder before it is put in place
made=proof.prf.new
new=

# shellcheck disable=SC2317
leave() {
  rm -rf -- "$room"
  [ -z "$new" ] || rm -f -- "$new"
}

# A paper of a supplier's is not to be lost, nor is a list to be made that could not be put in place: both are seen to before anything is run.
look_around() {
  if [ -e proof.prf ] || [ -L proof.prf ]; then
    [ ! -d proof.prf ] || none "$folder/proof.prf is a folder"
    [ $is_forced -eq 1 ] || none "there is a file $folder/proof.prf already, and it stays as it is (--force puts a new list in its place)"
  fi
  local said name=./.proof.prf.$$
  said=$({ set -C; : > "$name"; } 2>&1) || none "cannot write to the folder $folder (${said##*: })"
  new=$name
}

# The program has written a list just if it says so.
is_told() {
  case $verdict in
    MADE) [ -s "$room/files/$made" ] || none 'the program has printed MADE, and written no list' ;;
    *) [ ! -e "$room/files/$made" ] || none "the program has printed '$line', and written a list" ;;
  esac
}

# Brings the list into the folder, and only when it is there to the last byte gives it its name. `mv -n` leaves a file alone that has come meanwhile.
put_in_place() {
  local said how=-n
  [ $is_forced -eq 0 ] || how=-f
  said=$(cp -- "$room/files/$made" "$new" 2>&1) || none "cannot write the list to the folder $folder (${said##*: })"
  sync -- "$new" 2> /dev/null
  cmp -s -- "$room/files/$made" "$new" || none "the list was not written whole to the folder $folder"
  said=$(mv $how -T -- "$new" proof.prf 2>&1)
  if [ -e "$new" ]; then
    [ $is_forced -eq 1 ] || [ ! -e proof.prf ] || none "a file $folder/proof.prf has come meanwhile, and it stays as it is"
    none "cannot put the list in place (${said##*: })"
  fi
  new=
}

# ---- the verdict

is_legal() { [[ $1 =~ ^MADE\ [1-9][0-9]{0,3}$ || $1 =~ ^REFUSED\ 2[01]\ 0$ || $1 =~ ^REFUSED\ [1-6]\ (0|[1-9][0-9]{0,2})$ ]]; }

# where a refusal of the table was found
where() { if [ "$number" -eq 4 ]; then records_read table.tab "$place"; else record_at table.tab "$place"; fi; }

explain() {
  local back='send the table back to the supplier with this line' again=
  case $verdict$number in
    MADE*) say "made: no run of the table enters a final location; $folder/proof.prf shows it with $(counted "$number" row)" ;;
    REFUSED21)
      say "the library is bad: $words"
      say "do not load the library; $back"
      ;;
    REFUSED20)
      say "refused: $words"
      say 'there is room for 4,096 rows here, so there are more; no closed list of the table is so short that ./run would accept it'
      say "nothing is shown, neither that a final location is entered nor that none is, so do not load the library; $back"
      ;;
    *)
      [ "$number" -ne 1 ] && [ "$number" -ne 4 ] || again='the file may have been cut or mixed up: copy it again and try once more; if it is refused again, '
      say "refused: $words ($(where))"
      say "nothing is shown, so do not load the library; $again$back"
      ;;
  esac
  [ "$verdict" = MADE ] || [ ! -e proof.prf ] || say "$folder/proof.prf stays as it was"
}

# what the record says of the paper
paper() { if [ "$verdict" = MADE ]; then echo "made; SHA-256 $(digest "$room/files/$made")"; else echo 'none was made'; fi; }

# ---- the call
is_record=0 is_forced=0
while [ $# -gt 0 ]; do
  case $1 in
    -h | --help) usage || exit 2; exit 0 ;;
    --version) print_version || exit 2; exit 0 ;;
    --record) is_record=1 ;;
    --force) is_forced=1 ;;
    --) shift; break ;;
    *) break ;;
  esac
  shift
done
[ $# -le 1 ] || wrong_usage "one folder at a time, not $#"
enter "${1-}" table.tab

look_around
take table.tab
ready
judge
is_told
[ "$verdict" != MADE ] || put_in_place
printf '%s\n' "$line" || exit 2
explain
if [ $is_record -eq 1 ]; then { echo && block "$(paper)"; } || exit 2; fi
case $verdict$number in
  MADE*) exit 0 ;;
  REFUSED21) exit 3 ;;
  REFUSED*) exit 1 ;;
esac
exit 2
