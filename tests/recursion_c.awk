# As recursion.awk, of a file in C, from the calls that gcc lists:
#   gcc -O0 -fcallgraph-info -c -o NAME.o FILE && awk -f cycles.awk -f recursion_c.awk NAME.ci
# gcc puts the file's name before that of a function that has no other file to be called from.

BEGIN { FS = "\"" }

function short(of) {
  sub(/^.*:/, "", of)
  return of
}

/^node: \{ title: "/ { defines(short($2)) }
/^edge: \{ sourcename: "[^"]*" targetname: "/ { calls(short($2), short($4)); count++ }
/__indirect_call/ && /^edge: / { print "a call in " short($2) " is not by a function's name"; failed = 1 }

END {
  if (functions == 0) { print "there is no function"; failed = 1 }
  if (print_cycles("", "/dev/stdout") > 0) failed = 1
  if (!failed) print functions " functions, " count + 0 " calls"
  exit failed
}
