#!/usr/bin/env bash
# Holds the documents against the files that they speak of: every path named exists, every quote stands in its file, whole, and numbers, words, names,
# comparisons, axioms and examples are the same wherever they are written; and no code or definition goes by a comparison's number. The last line is
# 'N passed, M failed'.
# shellcheck disable=SC2016
set -u
export LC_ALL=C.UTF-8
cd "$(dirname "$0")/.." || exit 1
room=$(mktemp -d) && trap 'rm -rf "$room"' EXIT
passed=0 failed=0

ok() { passed=$((passed + 1)); }
bad() { failed=$((failed + 1)); echo "documents: $*"; }

# is WHAT EXPECTED GOT
is() { if [ "$2" = "$3" ]; then ok; else bad "$1: '$3', expected '$2'"; fi; }

# same WHAT: the two lists of lines $room/a and $room/b are the same, and not empty
same() {
  [ -s "$room/a" ] || { bad "$1: nothing was found"; return; }
  if diff "$room/a" "$room/b" > "$room/diff"; then ok; else bad "$1:"; grep '^[<>]' "$room/diff"; fi
}

# what stands between backquotes, one to a line
backquoted() { grep -o '`[^`]*`' | tr -d '`'; }

# ---- paths
while IFS=: read -r document path; do
  if [ -e "$path" ]; then ok; else bad "$document names $path, which is not there"; fi
done < <(grep -oE '`(crates|docs|examples|host|tester|tests)/[A-Za-z0-9_./-]+`' README.md docs/*.md | tr -d '`' | sort -u)

# the layout in README.md and the crates
sed -nE 's/^([a-z_]+)( staticlib)?:.*/\1/p' crates.txt | sort > "$room/a"
sed -n '/^## Layout/,$p' README.md | grep '^| `' | cut -d '|' -f 2 | backquoted | sed -n 's,^crates/,,p' | sort > "$room/b"
same 'the crates of crates.txt (<) and of the layout in README.md (>)'
sed -n '/^## Layers/,/^## [^L]/p' docs/ARCHITECTURE.md | grep '^|' | awk -F '|' '{print $(NF - 1)}' | backquoted | sort > "$room/b"
same 'the crates of crates.txt (<) and of the layers in docs/ARCHITECTURE.md (>)'

# ---- quotes
# quoted FILE: the block $room/block stands in the file, its lines one after the other, blanks at their ends aside, and ends where the thing ends that
# it quotes: the line after it is not a part of that, as a further field or clause would be. A line '..' stands for lines left out.
quoted() {
  awk '
    function trimmed(s) { sub(/^ +/, "", s); sub(/ +$/, "", s); return s }
    function indent(s) { match(s, /^ */); return RLENGTH }
    # the first place from `from` on where the lines first..last of the block stand
    function found(first, last, from,   i, k) {
      for (i = from; i + last - first <= lines; i++) {
        for (k = 0; first + k <= last && trimmed(line[i + k]) == block[first + k]; k++);
        if (first + k > last) return i
      }
      return 0
    }
    FNR == NR { block[++count] = trimmed($0); next }
    { line[++lines] = $0 }
    END {
      at = 1
      for (first = 1; first <= count; first = last + 2) {
        for (last = first; last < count && block[last + 1] != ".."; last++);
        i = found(first, last, at)
        if (!i) { print "not there as it is quoted: " block[first]; exit 1 }
        if (first == 1) margin = indent(line[i])
        at = i + last - first + 1
      }
      if (block[count] != ".." && at <= lines && trimmed(line[at]) != "" && indent(line[at]) > margin) { print "left out: " trimmed(line[at]); exit 1 }
    }' "$room/block" "$1"
}

# docs/PROMISE.md: a line with a path alone, then blocks of that file
quote() {
  [ -s "$room/block" ] || return
  if said=$(quoted "$1" 2>&1); then ok; else bad "docs/PROMISE.md quotes $1: $said"; fi
  : > "$room/block"
}
file=
: > "$room/block"
while IFS= read -r line; do
  case $line in
    '    '*) printf '%s\n' "$line" >> "$room/block" ;;
    *) quote "$file" ;;
  esac
  case $line in '`crates/'*'`') file=${line//\`/} ;; esac
done < docs/PROMISE.md
quote "$file"

# the declarations in README.md
while IFS= read -r line; do
  if grep -qxF -- "${line#    }" host/tzelmaruf.h; then ok; else bad "README.md declares what host/tzelmaruf.h does not: $line"; fi
done < <(grep -E '^    uint32_t ' README.md)

# ---- refusals: numbers, names and words are those of host/tzelmaruf.h
refusals() { sed -nE 's/^ *X\(([0-9]+), ([A-Z_]+), "(.*)"\).*/\1 \2 \3/p' host/tzelmaruf.h; }
# 18 and 19 are answers of following, which is not in the header
is 'refusal numbers in host/tzelmaruf.h' "$(seq -s ' ' 17) 20 21" "$(refusals | cut -d ' ' -f 1 | xargs)"
refusals | cut -d ' ' -f 1,3- > "$room/a"
sed -n '/^## Why a file is refused/,/^## /p' README.md | sed -nE 's/^\| ([0-9]+) \| (.)(.*) \| [^|]* \|$/\1 \L\2\E\3/p' | grep -vE '^1[89] ' > "$room/b"
same 'words of host/tzelmaruf.h (<) and of README.md (>)'
refusals | cut -d ' ' -f 1,2 > "$room/a"
sed -nE 's/^ *pub const ([A-Z_]+): u8 = ([0-9]+);/\2 \1/p' tester/src/answer.rs > "$room/constants"
grep -vE '^1[89] ' "$room/constants" > "$room/b"
same 'names of host/tzelmaruf.h (<) and of tester/src/answer.rs (>)'
is 'numbers in tester/src/answer.rs' "$(seq -s ' ' 21)" "$(cut -d ' ' -f 1 "$room/constants" | xargs)"
is 'numbers in README.md' "$(seq -s ' ' 21)" "$(sed -nE 's/^\| ([0-9]+) \|.*/\1/p' README.md | xargs)"
# the words of each name, written once more by hand
refusals | cut -d ' ' -f 2- | sort > "$room/a"
for folder in tests/refusals/*/ tests/makings/*/; do
  echo "$(basename "$folder" | tr 'a-z-' 'A-Z_') $(cat "$folder/words")"
done | sort > "$room/b"
same 'names and words of host/tzelmaruf.h (<) and of tests/refusals (>)'

# the release, as text and as a number
release=$(sed -n 's/^#define TZELMARUF_VERSION "\(.*\)"$/\1/p' host/tzelmaruf.h)
IFS=. read -r major minor patch <<< "$release"
is 'TZELMARUF_VERSION_NUMBER' $((10000 * major + 100 * minor + patch)) "$(sed -n 's/^#define TZELMARUF_VERSION_NUMBER //p' host/tzelmaruf.h)"

# the exit statuses: those that ./make and ./run give their verdicts, those that the help of ./run and of check name, and those in README.md
# section TITLE: of README.md
section() { awk -v title="## $1" '/^## / { is_in = $0 == title } is_in' README.md; }
sed -nE 's/^  (MADE|REFUSED21|REFUSED)\*?\) exit ([0-9]) ;;/\1 \2/p' make | sort > "$room/a"
section 'I have a table and no list' | sed -nE 's/^\| `(MADE|REFUSED)( 21)?.* \| ([0-9]) \|$/\1\2 \3/p' | sed 's/ 21 /21 /' | sort -u > "$room/b"
same 'exit statuses of make (<) and of README.md (>)'
sed -nE 's/^  (EMPTY|REFUSED|REACHED)\) exit ([0-9]) ;;/\1 \2/p' run | sort > "$room/a"
section 'Check your own files' | sed -nE 's/^\| `(EMPTY|REFUSED|REACHED) .* \| ([0-9]) \|$/\1 \2/p' | sort > "$room/b"
same 'exit statuses of run (<) and of README.md (>)'
for help in run host/check.c; do
  sed -nE 's/^ *"?  ([0-9])   (EMPTY|REFUSED|REACHED).*/\2 \1/p' $help | sort > "$room/b"
  same "exit statuses of run (<) and of the help in $help (>)"
done

# ---- examples: what README.md says they print
for folder in examples/*/; do
  if [ -f "$folder/expected" ]; then echo "${folder%/} $(cat "$folder/expected")"; else echo "${folder%/} $(cat "$folder/made")"; fi
done | sort > "$room/a"
sed -nE 's/^\| `(examples\/[a-z-]+)` \| .* \| `([A-Z0-9 ]*)` \|$/\1 \2/p' README.md | sort > "$room/b"
same 'the files expected (<) and the examples in README.md (>)'

# ---- docs/FORMAT.md
# the comparisons, each by its answers for below, at and above
signs() {
  local n=0 row
  while IFS= read -r row; do
    case ${row//[!truefalse ]/} in
      'true false false') row='<' ;;
      'true true false') row='≤' ;;
      'false true false') row='=' ;;
      'false true true') row='≥' ;;
      'false false true') row='>' ;;
      'true false true') row='≠' ;;
    esac
    echo "$n is $row"
    n=$((n + 1))
  done
}
tr '\n' ' ' < docs/FORMAT.md | sed -n 's/.*The comparisons: \([^.]*\)\..*/\1/p' | sed 's/, /\n/g; s/$/\n/' | sed '/^$/d' > "$room/a"
sed -n '/^answers =/,/^$/p' crates/automata/specs/Comparison.antt | grep -oE '(true|false) ∷ (true|false) ∷ (true|false)' | sed 's/ ∷//g' |
  signs > "$room/b"
same 'comparisons of docs/FORMAT.md (<) and of Comparison.antt (>)'
sed -n '/^const ANSWERS/,/^]/p' crates/regions/src/comparison.rt | grep -oE '(true|false), (true|false), (true|false)' | sed 's/,//g' | signs > "$room/b"
same 'comparisons of docs/FORMAT.md (<) and of comparison.rt (>)'
is 'numbers of comparisons in docs/FORMAT.md' "0 to $(($(wc -l < "$room/a") - 1))" \
  "$(sed -nE 's/^\| [12] \| (0 to [0-9]+) \|.*/\1/p' docs/FORMAT.md | sort -u)"

# the hex: a table and its paper, then a table with ≠; and the command that makes files of it, on the lines as they stand, without their margin, and
# with a deeper one
blocks() { awk '/^    [0-9A-F][0-9A-F] / { if (!is_in) n++; is_in = 1; if (n == wanted) print; next } { is_in = 0 }' wanted="$1" docs/FORMAT.md; }
recipe=$(sed -n 's/^    \(sed -nE .*table.txt.*\)/\1/p' docs/FORMAT.md)
[ -n "$recipe" ] || bad 'docs/FORMAT.md has no command that makes a file of hex'
command -v xxd > /dev/null || xxd() { tr -d ' \n' | sed 's/../\\x&/g' | xargs -0 printf; }
wanted=0
for file in empty/table.tab empty/proof.prf empty-not-equal/table.tab; do
  wanted=$((wanted + 1))
  for margin in '    ' '' '        ' $'\t'; do
    blocks $wanted | sed "s/^    /$margin/" > "$room/table.txt"
    rm -f "$room/table.tab"
    (cd "$room" && eval "$recipe")
    if cmp -s "$room/table.tab" "examples/$file"; then ok; else bad "the hex in docs/FORMAT.md, with the margin '$margin', is not examples/$file"; fi
  done
done

# ---- no place goes by a comparison's number
# What a comparison means stands in one table (`answers` in definitions, `ANSWERS` in code), and all else asks that table: a place that went by a number
# would be passed over when a further comparison comes, and take it for another. So no number, and no constant's name, may be held against a comparison,
# be given to one, or stand for one where a function or a definition takes one. Only the name of = (`equal`, `EQUAL`) may be given to one, as a kept
# clock moves by it; but it may not be held against one, nor may code ask the table about it. The search goes by the names `comparison` and `cmp`. In
# definitions 0 may stand where a list has ended, as in `idle`.
number='([0-9]\w*|(\w+::)*[A-Z][A-Z0-9_]+)' it='\b(comparison|cmp)\b'
held="($number|equal\b)"
{
  # code: u.comparison == 2 (also as usize), 2 <= comparison, comparison: 2, match u.comparison, holds(2, x, y)
  printf '%s\n' "$it( as \w+)?\)* (==|!=|<=?|>=?) \(*$held" "\b$held( as \w+)?\)* (==|!=|<=?|>=?) \(*(\w+\.)*$it" \
    "$it: $number" "\bmatch \(*(\w+\.)*$it" "\b(holds|answers_of|is_at_alone)\( ?$held"
  # and a number where a function has `comparison` among its arguments: update_ends(clocks, a, 2, z, from)
  sed 's,//.*,,' crates/*/src/*.rt | tr -s ' \n' '  ' | grep -oE '\bfn \w+\([^()]*\b(comparison|cmp): ' | sed -E 's/^fn //; s/\( ?&?self, /(/' |
    while IFS='(' read -r name before; do
      before=${before//[!,]/}
      printf '%s\n' "\b$name\((([^,()]|\([^()]*\))+,){${#before}} ?$number"
    done
  # definitions: eqb cmp 2, ltb 2 cmp, cmp ≡ 2, 2 ≤ cmp, comparison = 2, comparison_of cmp keep = 2
  printf '%s\n' "\b(eqb|leb|ltb|compare) $it $held" "\b(eqb|leb|ltb|compare) $held $it" "$it (≡|≢|<|≤|>|≥) $held" "\b$held (≡|≢|<|≤|>|≥) $it" \
    "$it = [1-9]" "\bcomparison_of [^:=]*= [0-9]"
  # and a number where a definition has `cmp` among its arguments: holds 2 x y
  sed 's/--.*//' crates/*/specs/*.antt | awk '/=/ {
    for (i = 2; i < NF && $i != "="; i++) if ($i ~ /^(cmp|comparison)$/) printf "\\b%s( [^ ()]+| [(][^()]*[)]){%d} [0-9]\n", $1, i - 2
  }' | sort -u
} > "$room/by-number"
# by_number FILE: what it finds, in the text without comments, as one line, with `cmp` for u.comparison and (comparison_of ..), and `equal` for EQUAL
by_number() {
  sed -E 's,(//|--).*,,' "$1" | tr -s ' \n' '  ' | sed -E 's/(\([^()]*\)|\b\w+)\.comparison\b/cmp/g; s/\(comparison_of ([^()]|\([^()]*\))*\)/cmp/g' |
    sed -E 's/\b(\w+::)*EQUAL\b/equal/g' | grep -oE -f "$room/by-number"
}
# it is awake: it finds these, and not those
for text in 'if update.comparison == 2 {' 'if (u.comparison as usize) != EQUAL {' 'if 3 <= comparison {' 'falling && comparison <= 1' 'comparison: 2,' \
  'if update.comparison == comparison::EQUAL {' 'if comparison::EQUAL as usize == (u.comparison as usize) {' 'comparison: comparison::AT_MOST,' \
  'match u.comparison {' 'comparison::holds(2, x, y)' 'comparison::holds(comparison::EQUAL, x, y)' 'comparison::answers_of(4)' 'is_at_alone(2)' \
  'update_ends(clocks_of(e), a, 2, z, from)' 'settledb u = eqb (comparison_of u.comparison u.action) 2' 'ltb 2 u.comparison' \
  'eqb (comparison_of u.comparison u.action) equal' 'eqb equal u.comparison' 'u.comparison ≡ equal' 'equal ≡ cmp' \
  'eqb (get_or us z idle).comparison 2' 'equal ≡ u.comparison' \
  'comparison_of cmp keep = 2' 'record { action = keep; comparison = 2 }' 'holds 2 x y' 'AllowedBy D (later d v) z x 2 keep' 'u.comparison ≡ 2'; do
  echo "$text" > "$room/text"
  if by_number "$room/text" > /dev/null; then ok; else bad "the search for a comparison's number passes over '$text'"; fi
done
for text in 'comparison: u8,' 'comparison: u.comparison,' 'comparison::holds(u.comparison, 1, 0)' 'holds u.comparison x (2 * k)' 'comparison = cmp;' \
  'comparison: comparison::EQUAL,' 'comparison_of cmp keep = equal' 'update_ends(clocks, a, u.comparison, 0, from)' \
  '// comparison == 2' 'AllowedBy D v z x cmp (constant 2)'; do
  echo "$text" > "$room/text"
  if found=$(by_number "$room/text"); then bad "the search for a comparison's number finds '$found'"; else ok; fi
done
for file in crates/*/src/*.rt crates/*/specs/*.antt; do
  case $file in
    # the table itself
    crates/automata/specs/Comparison.antt | crates/regions/src/comparison.rt) continue ;;
    # a table's fields and their ranges: a keep has 0 for its comparison
    crates/table_files/specs/TableFile.antt | crates/table_files/specs/TableBytes.antt | crates/table_records/*) continue ;;
  esac
  if found=$(by_number "$file"); then bad "$file goes by a comparison's number: ${found//$'\n'/; }"; else ok; fi
done

# ---- docs/THEOREMS.md: every theorem and function named is defined, every edit named is there, and every edit that is there is named
cat crates/*/specs/*.antt crates/*/proofs/Laws/*.antt | sed -nE 's/^ *((abbrev|unfoldable|opaque) )?(pub )?([^ ]+) :.*/\4/p' | sort -u > "$room/defined"
is_defined() { grep -qxF -- "$1" "$room/defined"; }
is_module() { compgen -G "crates/*/specs/$1.antt" > /dev/null || compgen -G "crates/*/proofs/Laws/$1.antt" > /dev/null; }
# has_function FUNCTION FILES..
has_function() {
  local function=$1
  shift
  grep -qE "fn $function\b" "$@" < /dev/null 2> /dev/null
}
# function NAME CRATE: crate::module::function, module::function in the crate (in any, if CRATE is *), or Type::method
# shellcheck disable=SC2046
is_function() {
  local name=${1##*::} path=${1%::*} crate=$2
  case $path in
    [A-Z]*) has_function "$name" $(compgen -G "crates/$crate/src/*.rt") ;;
    *::*) has_function "$name" "crates/${path%%::*}/src/${path##*::}.rt" ;;
    *) has_function "$name" $(compgen -G "crates/$crate/src/$path.rt") ;;
  esac
}
# the column 'theorem', whatever else is said in its title
theorems() {
  awk -F ' *[|] *' '
    !/^\|/ { column = 0; next }
    !column { column = -1; for (i = 2; i < NF; i++) if ($i ~ /^theorem/) column = i; next }
    column > 0 { print $column }' docs/THEOREMS.md
}
while IFS= read -r name; do
  case $name in */*) continue ;; esac
  if is_defined "$name" || is_module "$name" || [ -d "crates/$name" ]; then ok; else bad "docs/THEOREMS.md names the theorem $name, which is not defined"; fi
done < <(theorems | backquoted | sort -u)
[ "$(theorems | wc -l)" -gt 20 ] || bad 'docs/THEOREMS.md has no tables of theorems'
section='*'
: > "$room/named"
while IFS= read -r line; do
  case $line in
    '### `'*'`') section=${line#*\`} section=${section%\`} ;;
    '#'*) section='*' ;;
    '| `'*) [ "$section" = '*' ] || sed -E 's/^\| `([^`]*)`.*/'"$section"'\/\1/' <<< "$line" >> "$room/named" ;;
  esac
  while IFS= read -r name; do
    if is_function "$name" "$section"; then ok; else bad "docs/THEOREMS.md names $name, which is no function${section:+ of $section}"; fi
  done < <(backquoted <<< "$line" | grep -E '^[A-Za-z_]+(::[a-z_]+)+$')
  # "law `name` of `Module`", and the theorems that rest on it
  [ "$section" != '*' ] || continue
  if [[ $line =~ law\ \`([^\`]+)\`\ of\ \`([^\`]+)\` ]]; then
    if grep -qE "^ *(pub )?${BASH_REMATCH[1]} :" "crates/$section/proofs/Laws/${BASH_REMATCH[2]}.antt"; then ok; else bad "docs/THEOREMS.md: no law ${BASH_REMATCH[1]} in ${BASH_REMATCH[2]} of $section"; fi
  fi
done < docs/THEOREMS.md
sort "$room/named" > "$room/a"
for edit in crates/*/must-fail/*.edit; do
  edit=${edit#crates/}
  echo "${edit%%/*}/$(basename "$edit" .edit)"
done | sort > "$room/b"
same 'edits named in docs/THEOREMS.md (<) and those that are there (>)'

# ---- docs/PROMISE.md: the axioms that the programs' proofs rest on, as rt reports them, and that the library rests on none
axioms() { sed -nE 's/^  ([a-z0-9_]+(::[A-Za-z0-9_]+)+) +reached$/\1/p' "$1" | sort; }
for crate in tzelmaruf maker host_calls; do
  report=$room/$crate.report
  (cd crates/$crate && exec rt check --list-axioms) > "$report" 2>&1 < /dev/null
  if ! grep -q '^logic=proved' "$report"; then
    bad "rt has not proved $crate, so it reports no axioms: $(tail -n 3 "$report")"
    continue
  fi
  count=$(sed -nE 's/^logic=proved .* axioms=([0-9]+).*/\1/p' "$report")
  is "axioms that rt names of $crate" "${count:-0}" "$(axioms "$report" | wc -l)"
done
awk '/^- / { is_in = /^- \*\*The axioms\*\*/ } is_in' docs/PROMISE.md | backquoted | grep -E '^[a-z0-9_]+(::[A-Za-z0-9_]+)+$' | sort > "$room/b"
for crate in tzelmaruf maker; do
  axioms "$room/$crate.report" > "$room/a"
  same "axioms of $crate (<) and of docs/PROMISE.md (>)"
done
is 'axioms of the library' '' "$(axioms "$room/host_calls.report")"

# ---- one word for one thing: the file beside the table is the paper
for document in README.md docs/*.md host/tzelmaruf.h host/check.c run; do
  if grep -qiE 'second file|the proof file' "$document"; then bad "$document calls the paper something else"; else ok; fi
done

echo "$passed passed, $failed failed"
[ "$failed" -eq 0 ]
