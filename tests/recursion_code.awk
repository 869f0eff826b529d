# As recursion.awk, of a linked program, from its disassembly:
#   objdump -d --no-show-raw-insn PROGRAM | awk -f cycles.awk -f recursion_code.awk
# So it has the code of the kit's library too that is in the program. A compiler hides recursions that it has made loops of. What a linker adds that
# begins and ends every program is passed over. A jump through a pointer is one by a table, within a function.

/^[0-9a-f]+ <.*>:$/ {
  name = $0
  sub(/^[0-9a-f]+ </, "", name)
  sub(/>:$/, "", name)
  is_own = name !~ /^(_start|_init|_fini|frame_dummy|(de)?register_tm_clones|__do_global_dtors_aux)$|@plt(-0x[0-9a-f]+)?$|^\.plt/
  if (is_own) defines(name)
}

!is_own || !/^ *[0-9a-f]+:[ \t]*((notrack|bnd)[ \t]+)?(call|j)/ { next }

{
  text = $0
  sub(/^ *[0-9a-f]+:[ \t]*((notrack|bnd)[ \t]+)?/, "", text)
  is_call = text ~ /^call/
}

text ~ /\*/ {
  if (is_call) wrong("a call in " name " is not by a function's name")
  next
}

{
  if (!match(text, /<.*>/)) wrong("no target: " text " in " name)
  to = substr(text, RSTART + 1, RLENGTH - 2)
  if (to ~ /@plt$/) next
  if (sub(/\+0x[0-9a-f]+$/, "", to)) {
    if (is_call || to != name) wrong("into the middle of a function: " to " in " name)
  } else if (is_call || to != name) {
    calls(name, to)
  }
}

function wrong(text) {
  print text
  failed = 1
}

END {
  for (i = 1; i <= functions; i++) count += callees[function_named[i]]
  if (functions == 0) wrong("there is no function")
  if (print_cycles("", "/dev/stdout") > 0) failed = 1
  if (!failed) print functions " functions, " count + 0 " calls"
  exit failed
}
