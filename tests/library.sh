#!/usr/bin/env bash
# What the static library holds, needs and uses: four functions outward, nothing from outside but memory copies of the C library, no memory that
# could keep anything between calls, nothing that runs by itself, no recursion, and a bounded stack. The last line is 'N passed, M failed'.
set -u
cd "$(dirname "$0")/.." || exit 1
# as it is installed: made of the archive that rt has written, with nothing added
library=target/host/libtzelmaruf.a
written=crates/host_calls/out/libhost_calls.a
# the most stack that README.md and docs/EVIDENCE.md promise for each function, in bytes
limit_of() { case $1 in tzelmaruf_make_list) echo 20480 ;; *) echo 16384 ;; esac }
passed=0 failed=0

ok() { passed=$((passed + 1)); }
bad() { failed=$((failed + 1)); echo "library: $*"; }

# is WHAT EXPECTED GOT
is() { if [ "$2" = "$3" ]; then ok; else bad "$1: '$3', expected '$2'"; fi; }

# stack.awk on code made up: two functions, of which the last jumps back to where it begins, as it does where a call of itself at the end was made
# a loop; and then with lines more
made_up() {
  printf '%s\n' '0000 <outer>:' ' 0: push   %rbx' ' 1: sub    $0x20,%rsp' ' 5: call   a <outer+0xa>' '  6: R_X86_64_PLT32 inner-0x4' ' a: ret' \
    '0000 <inner>:' ' 0: add    $0xffffffffffffff80,%rsp' ' 4: jne    0 <inner>' ' 9: ret' "$@"
}
# the bound, or what is wrong
bound() { awk -v outward=outer -f tests/cycles.awk -f tests/stack.awk 2>&1; }
is 'the bound of code made up' 'outer 312' "$(made_up | bound)"
# noticed WHAT SAID LINES..: the code with these lines more has no bound, and this is said, in its first line
noticed() {
  local what=$1 said=$2 got
  shift 2
  if got=$(made_up "$@" | bound); then bad "goes unnoticed: $what"; else is "$what" "stack: $said" "${got%%$'\n'*}"; fi
}
noticed 'a function that calls itself' 'inner calls itself' ' a: call   0 <inner>'
noticed 'a function that calls itself, by a line for the linker' 'inner calls itself' ' a: call   f <inner+0xf>' '  b: R_X86_64_PLT32 inner-0x4'
noticed 'a function that calls itself, in a section of code that is seldom run' 'inner calls itself' ' a: call   f <inner+0xf>' \
  '  b: R_X86_64_PLT32 .text.unlikely.inner-0x4'
noticed 'recursion by way of another function' 'outer calls itself by way of inner' ' a: call   0 <outer>'
noticed 'recursion by a jump to another function' 'outer calls itself by way of inner' ' a: jmp    0 <outer>'
noticed 'recursion that nothing outward leads to' 'apart calls itself' '0000 <apart>:' ' 0: call   0 <apart>'
noticed 'a call through a pointer' 'a call or a jump through a pointer in inner' ' a: call   *%rax'
noticed 'a jump through a pointer' 'a call or a jump through a pointer in inner' ' a: notrack jmp *%rax'
noticed 'two functions of one name' 'two functions have the name outer' '0000 <outer>:' ' 0: ret'
noticed 'a frame of any size' 'the stack pointer moves: sub    %rax,%rsp in inner' ' a: sub    %rax,%rsp'
noticed 'an aligned frame' 'the stack pointer moves: and    $0xffffffffffffffe0,%rsp in inner' ' a: and    $0xffffffffffffffe0,%rsp'
noticed 'a frame pointer' 'the stack pointer moves: leave in inner' ' a: leave'
noticed 'a function from outside' 'a function from outside: elsewhere in inner' ' a: call   0 <elsewhere>'

if ! command -v objdump > /dev/null; then
  bad "no command 'objdump' on the PATH: it comes with binutils, as nm and size do"
elif [ ! -f "$written" ]; then
  bad "there is no $written: build it with 'rt lib' in crates/host_calls"
elif ! make -s -C host RT=; then
  bad 'make -C host fails'
else
  if cmp -s "$library" "$written"; then ok; else bad "$library is not what rt has written to $written"; fi
  outward=$(nm -g --defined-only "$library" | awk 'NF == 3 {print $3}' | sort | tr '\n' ' ')
  is 'functions outward' 'tzelmaruf_admit tzelmaruf_check_regions tzelmaruf_check_run tzelmaruf_make_list ' "$outward"
  # a weak symbol, that may be missing, is one from outside too
  needed=$(nm -u "$library" | awk 'NF == 2 {print $2}' | sort -u)
  is 'symbols from outside besides memory copies' '' "$(grep -vxE '(memcpy|memmove|memset|memcmp)?' <<< "$needed" | tr '\n' ' ')"
  for document in README.md host/tzelmaruf.h; do
    promise=$(tr '\n' ' ' < "$document" | grep -oE 'needs nothing from outside but[^.]*\.')
    for name in $needed; do
      if grep -qw -- "$name" <<< "$promise"; then ok; else bad "the library needs $name, and $document says that it '$promise'"; fi
    done
  done
  writable=$(size "$library" | awk 'NR > 1 {sum += $2 + $3} END {print sum + 0}')
  is 'bytes of writable data' 0 "$writable"
  # what is loaded is code and constants, in sections of these names alone: none that may be written, none of a thread, none that is run before `main`
  loaded=$(objdump -h -w "$library" | awk '$1 ~ /^[0-9]+$/ && $3 !~ /^0*$/ && / ALLOC/ {print $2 (/ READONLY/ ? "" : " (writable)")}')
  is 'sections loaded besides code and constants' '' "$(grep -vE '^\.(text|rodata)(\.[^ ]*)?$|^\.eh_frame$' <<< "$loaded" | sort -u | tr '\n' ' ')"
  if bounds=$(tests/stack.sh "$library"); then ok; else bad "the stack has no bound"; fi
  while read -r name bytes; do
    if [ "$bytes" -le "$(limit_of "$name")" ]; then ok; else bad "$name may use $bytes bytes of stack, the limit is $(limit_of "$name")"; fi
  done <<< "$bounds"
  echo "$bounds"
fi

echo "$passed passed, $failed failed"
[ "$failed" -eq 0 ]
