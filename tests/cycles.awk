# Which functions call themselves, directly or by way of others; for an awk program beside this one, which tells by `defines` and `calls` what it has
# read. Nothing here calls itself either.

# one more function; what is told of it twice counts once
function defines(of) {
  if (of in callees) return
  function_named[++functions] = of
  callees[of] = 0
}

# one more call, or jump, of the one function to the other
function calls(of, to) {
  defines(of)
  if ((of, to) in met) return
  met[of, to] = 1
  callee[of, ++callees[of]] = to
}

# the first function that `of` calls and that is left, by a call that has not been reported; none if there is no such
function next_left(of,   i, to) {
  for (i = 1; i <= callees[of]; i++) {
    to = callee[of, i]
    if (to in left && !((of, to) in reported)) return to
  }
  return ""
}

# drops every function that leads to none that is left; those that stay lead back to one that they have come from
function drop_ends(   dropped, i, of) {
  do {
    dropped = 0
    for (i = 1; i <= functions; i++) {
      of = function_named[i]
      if (of in left && next_left(of) == "") {
        delete left[of]
        dropped = 1
      }
    }
  } while (dropped)
}

# the first function that is left; none if all are dropped
function first_left(   i) {
  for (i = 1; i <= functions; i++) if (function_named[i] in left) return function_named[i]
  return ""
}

# the cycle that the first calls from `of` on lead into, in words; the call that closes it is reported then
function cycle_from(of,   start, text) {
  split("", then)
  for (; !(of in then); of = then[of]) then[of] = next_left(of)
  start = of
  for (; then[of] != start; of = then[of]) text = text (text == "" ? " by way of " : ", ") then[of]
  reported[of, start] = 1
  return start " calls itself" text
}

# prints a line for each cycle, with the text before it, and answers how many there are
function print_cycles(before, where,   i, of, count) {
  for (i = 1; i <= functions; i++) left[function_named[i]] = 1
  drop_ends()
  for (count = 0; (of = first_left()) != ""; count++) {
    print before cycle_from(of) > where
    drop_ends()
  }
  return count
}
