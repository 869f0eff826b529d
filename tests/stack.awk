# The most stack that each outward function can use, from the disassembly of a static library for x86-64:
#   objdump -dr --no-show-raw-insn LIBRARY | awk -v outward='NAME ..' -v outside='NAME ..' -f cycles.awk -f stack.awk
# It prints a line for each outward function, its name and the bytes: return addresses, saved registers and frames on the worst path of calls, and
# the 128 bytes below the stack pointer that the calling convention gives to a function that calls no other. A function `outside` the library counts
# with its return address only. What cannot be bounded is an error: any recursion, whether the outward functions lead to it or not, a call through a
# pointer, a stack pointer that moves by something else than a number.

BEGIN {
  red_zone = 128
  count = split(outside, words, " ")
  for (i = 1; i <= count; i++) begins(words[i])
}

# one more function, whose return address is on the stack
function begins(of) {
  if (of in frame) wrong("two functions have the name " of)
  defines(of)
  frame[of] = 8
}

function wrong(text) {
  print "stack: " text > "/dev/stderr"
  failed = 1
}

# the value of lower-case hex digits
function hex(digits,   i, value) {
  value = 0
  for (i = 1; i <= length(digits); i++) value = 16 * value + index("0123456789abcdef", substr(digits, i, 1)) - 1
  return value
}

# one more function that the present one calls, or jumps to
function leads(to) {
  sub(/^\.text\.((unlikely|hot|startup|exit)\.)?/, "", to)
  sub(/[-+]0x[0-9a-f]+$/, "", to)
  calls(name, to)
}

# a call or a jump that has no line for the linker leads to a function of the same section, or into the present function's own code
function settle(   to) {
  to = pending
  pending = ""
  if (!match(to, /<.*>/)) return wrong("no target: " to " in " name)
  to = substr(to, RSTART + 1, RLENGTH - 2)
  if (to !~ /\+0x[0-9a-f]+$/) {
    if (is_call || to != name) leads(to)
  } else if (is_call || index(to, name "+0x") != 1) {
    wrong("into the middle of a function: " to " in " name)
  }
}

# what a `sub` or an `add` of a number takes from the stack pointer; a negative number has 16 digits
function taken(operation, digits) {
  if (length(digits) < 9) return operation ~ /^sub/ ? hex(digits) : 0
  return operation ~ /^add/ ? 4294967296 - hex(substr(digits, length(digits) - 7)) : 0
}

# a function begins
/^[0-9a-f]+ <.*>:$/ {
  if (pending != "") settle()
  name = substr($0, index($0, "<") + 1)
  sub(/>:$/, "", name)
  begins(name)
  next
}

# the linker's line for the instruction before
/R_X86_64_/ {
  if (pending != "") leads($3)
  pending = ""
  next
}

!/^ *[0-9a-f]+:/ { next }

{
  if (pending != "") settle()
  text = $0
  sub(/^ *[0-9a-f]+:[ \t]*/, "", text)
  split(text, word, /[ \t]+/)
}

word[1] ~ /^push/ { frame[name] += 8; next }
word[1] ~ /^(pop|ret|cmp|test)/ { next }
text ~ /^((notrack|bnd)[ \t]+)?(call|jmp)[a-z]*[ \t]+\*/ { wrong("a call or a jump through a pointer in " name); next }
word[1] ~ /^(call|j)/ && text !~ /\*/ { is_call = (word[1] ~ /^call/); pending = text; next }
word[1] ~ /^(sub|add)q?$/ && word[2] ~ /^\$0x[0-9a-f]+,%rsp$/ {
  digits = substr(word[2], 4)
  sub(/,%rsp$/, "", digits)
  frame[name] += taken(word[1], digits)
  next
}
word[1] ~ /^(enter|leave)/ || text ~ /,%[er]?spl?$/ { wrong("the stack pointer moves: " text " in " name) }

# the most that the functions called by this one take; -1 as long as that of one of them is not known
function most_below(of,   i, to, most) {
  most = 0
  for (i = 1; i <= callees[of]; i++) {
    to = callee[of, i]
    if (!(to in depth)) return -1
    if (depth[to] > most) most = depth[to]
  }
  return most
}

# the most that a call of each function takes, the red zone aside, from those on that call no other
function find_depths(   found, i, of, most) {
  do {
    found = 0
    for (i = 1; i <= functions; i++) {
      of = function_named[i]
      if (of in depth || (most = most_below(of)) < 0) continue
      depth[of] = frame[of] + most
      found = 1
    }
  } while (found)
}

# a function that is called and is not in the library has no bound
function look_outside(   i, j, of, to) {
  for (i = 1; i <= functions; i++) {
    of = function_named[i]
    for (j = 1; j <= callees[of]; j++) {
      to = callee[of, j]
      if (!(to in frame)) wrong("a function from outside: " to " in " of)
    }
  }
}

END {
  if (pending != "") settle()
  look_outside()
  if (print_cycles("stack: ", "/dev/stderr") > 0) failed = 1
  find_depths()
  count = split(outward, words, " ")
  for (i = 1; i <= count; i++) {
    if (words[i] in depth) print words[i], depth[words[i]] + red_zone
    else wrong("no bound for " words[i])
  }
  exit failed
}
