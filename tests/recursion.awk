# The functions that call themselves, directly or by way of others, from the MIR of crates, as rt leaves it with each library that it has built:
#   sed -E 's/\{"Call":\[?|\{"Fn":|\["[^"]*",\{"lifetimes":[0-9]/\n&/g' crates/*/out/rlib/*.rlib/toolchain/mir.json | awk -v takers='F ..' -v derived='F ..' -f cycles.awk -f recursion.awk
# MIR has every function of its crate, with each call as it is written: nothing is inlined, and a call at the end of a function is not a jump yet. So
# this sees what compiled code may hide. A call that hands on how a type does something, as a closure is called, counts as calls of all that the type's
# block has: whoever is given it may call that, and no one else can. The functions that `takers` names may call what was given to them, and that counts
# as calls of all that is handed to them anywhere. Those that `derived` names, which a derive wrote for a type with a parameter, call how that type does
# something; so no function may call them, nor hand on what has them. The functions of the kit are not in this MIR: none of them knows one of these crates but by what is
# handed on, and what they call of each other is seen in the compiled code.
# It prints a line for each cycle, and one for what it cannot tell: a call of anything else but a named function, of what was given by any other
# function, or where nothing is handed to it, or in a way that hands on more; a name that stands in no call; a call that hands on what was given itself;
# a function that is called and is not there. If there is none, it prints how many functions and calls it has seen.

function wrong(text) {
  print text
  failed = 1
}

# what stands in the first quotes
function quoted(   word) {
  split($0, word, "\"")
  return word[2]
}

BEGIN {
  split(takers, words, " ")
  for (i in words) takes[words[i]]
  split(derived, words, " ")
  for (i in words) uncalled[words[i]]
}

/^\["[^"]*",\{"lifetimes":[0-9]/ {
  name = quoted()
  defines(name)
}

# whether it is a function of the kit
function of_kit(of) {
  return of ~ /^(core|alloc|std|std_[a-z]+|itoa)::/
}

# the blocks whose names stand in the line, of which any function may be called now, by this function and by the one that they are handed to
function hands(text, to) {
  while (match(text, /\{"Impl":\["[^"]*"/)) {
    block = substr(text, RSTART + 10, RLENGTH - 11)
    if (!of_kit(block)) {
      handed[name, ++hands_of[name]] = block
      given[to, ++given_to[to]] = block
    }
    text = substr(text, RSTART + RLENGTH)
  }
}

# one more call by something else than a name
function nameless(of) {
  wrong("a call in " of " is not by a function's name")
}

# all functions of the block are called
function calls_all(of, block,   i) {
  for (i = 1; i <= functions; i++) if (index(function_named[i], block "::") == 1) calls(of, function_named[i])
}

# the function that is called stands on a line of its own, right after the one that begins the call; or what was given is called, and nothing handed on
/^\{"Call":/ && $0 != "{\"Call\":[" {
  if (name in takes && $0 ~ /^\{"Call":\[\{"Method":\[\{"Given":[0-9]+\},[0-9]+,\{"types":\[\],"dicts":\[\]\}\]\},/) calls_given[name]
  else if (!(name in uncalled)) nameless(name)
}

/^\{"Fn":/ {
  split($0, word, "\"")
  if (before != "{\"Call\":[") wrong(name " has the name of " word[4] " elsewhere than in a call")
  else if (!of_kit(word[4])) calls(name, word[4])
  if ($0 ~ /"dicts":.*\{"Given":/) wrong(name " hands on to " word[4] " what was given to it")
  hands($0, word[4])
}

{ before = $0 }

END {
  for (i = 1; i <= functions; i++) {
    of = function_named[i]
    for (j = 1; j <= hands_of[of]; j++) calls_all(of, handed[of, j])
    if (!(of in calls_given)) continue
    if (!(of in given_to)) nameless(of)
    for (j = 1; j <= given_to[of]; j++) calls_all(of, given[of, j])
  }
  for (i = 1; i <= functions; i++) {
    of = function_named[i]
    for (j = 1; j <= callees[of]; j++) {
      if (!(callee[of, j] in callees)) wrong(of " calls " callee[of, j] ", which is not there")
      if (callee[of, j] in uncalled) wrong(of " calls " callee[of, j] ", which a derive wrote")
    }
    count += callees[of]
  }
  if (functions == 0) wrong("there is no function")
  if (print_cycles("", "/dev/stdout") > 0) failed = 1
  if (!failed) print functions " functions, " count + 0 " calls"
  exit failed
}
