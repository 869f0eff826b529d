#!/usr/bin/env bash
# No function calls itself, neither directly nor by way of others: in no crate of crates.txt, in nothing of the kit that the library uses, not in the
# programs as they are compiled, with what they have of the kit, and not in the C program. The coding rules of the pump's maker forbid it. What is left
# of calls in the compiled library is looked at in tests/library.sh. The last line is 'N passed, M failed'.
#
# It goes by the MIR of the library's crates, which has each call as it is written, and which rt leaves with each crate that it has proved and built. Where
# the library hands a closure to a function of the kit, that counts as a call of the closure. Of the crates around it, which use more of the kit, rt itself
# tells: it has the functions of a cycle of calls proved together, in a module whose name begins with a plus sign, and writes down its modules where it is
# asked to.
set -u
export LC_ALL=C.UTF-8
cd "$(dirname "$0")/.." || exit 1
here=$PWD
work=$(mktemp -d) && trap 'rm -rf "$work"' EXIT
passed=0 failed=0

ok() { passed=$((passed + 1)); }
bad() { failed=$((failed + 1)); echo "recursion: $*"; }

# is WHAT EXPECTED GOT
is() { if [ "$2" = "$3" ]; then ok; else bad "$1: '$3', expected '$2'"; fi; }

# The functions of the library that may call what was given to them. There is one: `pattern_where` asks the test that it is given of each clock, for the
# two numbers of a choice that differ in this test alone. Its calls count as calls of each test that is handed to it, so that no call is left untold.
takers=rankings::ranking::pattern_where
# What a derive wrote for a type with a parameter, and no function calls: `Work` is copied, and a copy is no call.
derived=making_turns::work::WorkClone::clone

# cycles FILE..: what recursion.awk says of files of MIR
cycles() {
  sed -E 's/\{"Call":\[?|\{"Fn":|\["[^"]*",\{"lifetimes":[0-9]/\n&/g' "$@" | awk -v takers="$takers" -v derived="$derived" -f "$here/tests/cycles.awk" -f "$here/tests/recursion.awk"
}

# code_cycles PROGRAM: the same of a program
code_cycles() { objdump -d --no-show-raw-insn "$1" | awk -f tests/cycles.awk -f tests/recursion_code.awk; }

# c_cycles FILE: the same of a file in C
c_cycles() {
  gcc -O0 -fkeep-inline-functions -fkeep-static-functions -fcallgraph-info -Ihost -c -o "$work/c.o" "$1" 2>&1 || return 1
  awk -f tests/cycles.awk -f tests/recursion_c.awk "$work/c.ci"
}

# what rt has said that tells of a fault, at its end
complaints() { grep -vE ': proved$|: modules loaded=' "$work/said" | tail -n 20; }

# mir_of CRATE: the MIR that rt has left with a crate that it has built
mir_of() { cat "crates/$1/out/rlib/$1.rlib/toolchain/mir.json" 2>&1; }

# modules_of CRATE: rt's modules of its proofs, in the folder $work/modules/CRATE, or what rt says instead
modules_of() {
  rm -rf "$work/generated" && mkdir -p "$work/modules"
  (cd "crates/$1" && exec rt check --generated "$work/generated") > "$work/said" 2>&1 < /dev/null || { complaints; return 1; }
  mv "$work/generated/Rattle-$1-proofs" "$work/modules/$1"
}

# rings CRATE: the cycles of calls among its functions, by its modules
rings() { (cd "$work/modules/$1" && find . -name '+*.antt' ! -path '*/Code/*' | sed 's,^\./,,; s,\.antt$,,' | sort | tr '\n' ' '); }

# has_module CRATE FUNCTION: whether there is a module with the code of a function of this name
has_module() { [ -n "$(find "$work/modules/$1" -path "*/$2/Code.antt" -print -quit)" ]; }

# ---- code made up, as a repository of its own: one crate without a recursion, and one with some, each of which ends
mkdir -p "$work/repository/crates/plain/src" "$work/repository/crates/made_up/src"
printf 'plain:\nmade_up:\n' > "$work/repository/crates.txt"
cat > "$work/repository/crates/plain/src/lib.rt" << 'END'
// A call in a loop, two ways to one function.
#![tactic(auto)]

fn last(n: u32) -> u32 {
    n
}

fn left(n: u32) -> u32 {
    last(n)
}

fn right(n: u32) -> u32 {
    last(n)
}

pub fn first(n: u32) -> u32 {
    let mut found = 0;
    for i in 0..n {
        found = left(i);
    }
    right(found)
}

// a closure that is handed to the kit
pub fn all_below(n: u32) -> bool {
    (0..n).all(|i| last(i) < 9)
}
END
cat > "$work/repository/crates/made_up/src/lib.rt" << 'END'
#![tactic(auto)]

ghost use Rattle.std.specs.Prelude.{◌<◌};

// a function that calls itself
pub fn most(n: u32) -> u32 {
    if n == 0 {
        return 0;
    }
    let rest = most(n - 1);
    if rest < n { n } else { rest }
}

// a call of itself at the end, which the compiler makes a loop
pub fn count(n: u32, found: u32) -> u32 {
    if n == 0 {
        return found;
    }
    count(n - 1, found)
}

// a call of itself that is never made
pub fn never(n: u32) -> u32 {
    if n < n {
        return never(n);
    }
    n
}

// two functions by way of each other
#[cycle(parity)]
fn even(n: u32) -> bool {
    if n == 0 {
        return true;
    }
    odd(n - 1)
}

#[cycle(parity)]
fn odd(n: u32) -> bool {
    if n == 0 {
        return false;
    }
    even(n - 1)
}

pub fn is_even(n: u32) -> bool {
    even(n)
}

// a function and methods, three in a ring
#[derive(Clone, Copy)]
pub struct Walk {
    left: u32,
}

impl Walk {
    #[cycle(ring)]
    fn step(self) -> u32
        requires { 0 < self.left }
    {
        ask(self.left - 1)
    }

    #[cycle(ring)]
    fn begin(left: u32) -> u32
        requires { 0 < left }
    {
        let walk = Walk { left };
        walk.step()
    }
}

#[cycle(ring)]
pub fn ask(n: u32) -> u32 {
    if n == 0 {
        return 0;
    }
    Walk::begin(n)
}

// a method that calls itself, and one that has its name
#[derive(Clone, Copy)]
pub struct Down {
    left: u32,
}

#[derive(Clone, Copy)]
pub struct Up {
    left: u32,
}

impl Down {
    pub fn go(self) -> Down {
        if self.left == 0 {
            return self;
        }
        let further = Down {
            left: self.left - 1,
        };
        further.go()
    }
}

impl Up {
    pub fn go(self) -> Down {
        let down = Down { left: self.left };
        down.go()
    }
}

// two recursions, one inside the other
#[cycle(nest)]
fn inner(n: u32) -> u32 {
    if n == 0 {
        return 0;
    }
    if n == 1 {
        return inner(n - 1);
    }
    outer(n - 1)
}

#[cycle(nest)]
pub fn outer(n: u32) -> u32 {
    inner(n)
}
END
# measures CYCLE FUNCTION MEASURE..: that the functions of the cycle end
measures() {
  local folder=$work/repository/crates/made_up/proofs/$1
  mkdir -p "$folder"
  {
    printf 'use Rattle.std.proofs.Common.{◌+◌, ◌*◌}\nuse Rattle.made_up.proofs.%s.Given as goal\n' "${1//\//.}"
    shift
    while [ $# -gt 0 ]; do
      printf '\nabbrev pub decreases-%s : goal.decreases-%s\ndecreases-%s l = %s\n' "$1" "$1" "$1" "$2"
      shift 2
    done
  } > "$folder/Invariants.antt"
}
measures +most most l.n
measures +count count l.n
measures +never never l.n
measures +parity even l.n odd l.n
measures +ring ask '3 * l.n + 2' Walk::begin '3 * l.left + 1' Walk::step '3 * l.self.left'
measures Down/+go go l.self.left
measures +nest inner '2 * l.n' outer '2 * l.n + 1'
for crate in plain made_up; do
  (cd "$work/repository/crates/$crate" && rt lib) > "$work/said" 2>&1 < /dev/null || bad "code made up: $(complaints)"
  (cd "$work/repository" && mir_of $crate) > "$work/$crate.mir" || bad "code made up: $(cat "$work/$crate.mir")"
  (cd "$work/repository" && modules_of $crate) > "$work/trouble" || bad "modules of code made up: $(cat "$work/trouble")"
done
is 'no recursion' '9 functions, 10 calls' "$(cycles "$work/plain.mir")"
is 'recursions of all kinds' 'made_up::Down::go calls itself
made_up::ask calls itself by way of made_up::Walk::begin, made_up::Walk::step
made_up::count calls itself
made_up::even calls itself by way of made_up::odd
made_up::inner calls itself
made_up::inner calls itself by way of made_up::outer
made_up::most calls itself
made_up::never calls itself' "$(cycles "$work/made_up.mir" | sort)"
is 'no recursion, by rt' '' "$(rings plain)"
is 'recursions of all kinds, by rt' '+count +most +nest +never +parity +ring Down/+go ' "$(rings made_up)"
for function in most count never even odd is_even step begin ask go inner outer; do
  if has_module made_up $function; then ok; else bad "rt has no module of the function $function made up"; fi
done

# noticed WHAT LINE MIR: what cannot be told from such MIR is said
noticed() {
  printf '[["one",{"lifetimes":0,"body":["Seq",%s,"Return"]}]]' "$3" > "$work/noticed.mir"
  is "$1" "$2" "$(cycles "$work/noticed.mir")"
}
noticed 'a function that is not there' 'one calls two, which is not there' '{"Call":[{"Fn":["two",{"types":[],"dicts":[]}]},[],{"local":0,"steps":[]}]}'
noticed 'a call through a bound' "a call in one is not by a function's name" '{"Call":[{"Method":[{"Given":0},0,{"types":[],"dicts":[]}]},[],{"local":0,"steps":[]}]}'
noticed 'a call by how a type does something' "a call in one is not by a function's name" '{"Call":[{"Method":[{"Impl":["two",[],[]]},0,{"types":[],"dicts":[]}]},[],{"local":0,"steps":[]}]}'
noticed 'a call through a pointer' "a call in one is not by a function's name" '{"Call":[{"Copy":{"local":1,"steps":[]}},[],{"local":0,"steps":[]}]}'
noticed 'a function kept in a place' 'one has the name of one elsewhere than in a call' '{"Assign":[{"local":1,"steps":[]},{"Opd":{"Fn":["one",{"types":[],"dicts":[]}]}}]}'
noticed 'a call that hands on a function' 'one hands on to one what was given to it
one calls itself' '{"Call":[{"Fn":["one",{"types":["Bool"],"dicts":[{"Given":0}]}]},[],{"local":0,"steps":[]}]}'
noticed 'a call that hands on a function behind a type' 'one hands on to core::all what was given to it' \
  '{"Call":[{"Fn":["core::all",{"types":[],"dicts":[{"Impl":["core::Range",[],[]]},{"Given":0}]}]},[],{"local":0,"steps":[]}]}'

# made WHAT LINE NAME MIR ..: the same of several functions, whose names and code stand in turns
made() {
  local what=$1 line=$2 between='['
  shift 2
  while [ $# -gt 0 ]; do
    printf '%s["%s",{"lifetimes":0,"body":["Seq",%s"Return"]}]' "$between" "$1" "${2:+$2,}"
    between=,
    shift 2
  done > "$work/noticed.mir"
  printf ']' >> "$work/noticed.mir"
  is "$what" "$line" "$(cycles "$work/noticed.mir")"
}
# call NAME [BLOCK]: a call of the function, which hands on what the block has
call() { printf '{"Call":[{"Fn":["%s",{"types":[],"dicts":[%s]}]},[],{"local":0,"steps":[]}]}' "$1" "${2:+{\"Impl\":[\"$2\",[],[]]\}}"; }
# call_given [BLOCK]: a call of what was given
call_given() { printf '{"Call":[{"Method":[{"Given":0},0,{"types":[],"dicts":[%s]}]},[],{"local":0,"steps":[]}]}' "${1:+{\"Impl\":[\"$1\",[],[]]\}}"; }
made 'a function that calls itself by way of a closure' 'one calls itself by way of one::all+FnMut::call_mut' \
  one '{"Call":[{"Fn":["core::all",{"types":[],"dicts":[{"Impl":["core::Range",[],[]]},{"Impl":["one::all+FnMut",[],[]]}]}]},[],{"local":0,"steps":[]}]}' \
  one::all+FnMut::call_mut "$(call one)"
made 'a closure that is handed on' '2 functions, 1 calls' one "$(call core::all one::all+FnMut)" one::all+FnMut::call_mut ''
made 'a call of what was given that hands on a closure' "a call in one is not by a function's name" \
  one "$(call_given one::all+FnMut)" one::all+FnMut::call_mut "$(call one)"
made 'a closure that is handed on, and a call of what was given' "a call in one is not by a function's name" \
  one "$(call core::all one::all+FnMut),$(call_given)" one::all+FnMut::call_mut ''
# and where the function is one that may call what was given
takers=one made 'a call of what was given' '3 functions, 3 calls' one "$(call_given)" two "$(call one two::one+Fn)" two::one+Fn::call ''
takers=one made 'a call of what was given, where nothing is' "a call in one is not by a function's name" one "$(call_given)" two "$(call one)"
takers=one made 'a call of what was given that hands on a closure too' "a call in one is not by a function's name" \
  one "$(call_given one::all+FnMut)" one::all+FnMut::call_mut "$(call one)" two "$(call one two::one+Fn)" two::one+Fn::call ''
takers=one made 'a function that calls itself by way of a closure of its caller' 'one calls itself by way of two::one+Fn::call' \
  one "$(call_given)" two "$(call one two::one+Fn)" two::one+Fn::call "$(call one three::one+Fn)" three::one+Fn::call ''
# and where a derive wrote the function: nothing calls it, or hands it on
derived=one::TypeClone::clone made 'a derived function that calls how a type does something' '2 functions, 0 calls' one '' one::TypeClone::clone "$(call_given)"
derived=one::TypeClone::clone made 'a call of a derived function' 'one calls one::TypeClone::clone, which a derive wrote' \
  one "$(call one::TypeClone::clone)" one::TypeClone::clone "$(call_given)"
derived=one::TypeClone::clone made 'a derived function that is handed on' 'one calls one::TypeClone::clone, which a derive wrote' \
  one "$(call core::all one::TypeClone)" one::TypeClone::clone "$(call_given)"
is 'no MIR' 'there is no function' "$(cycles /dev/null)"

# c_seen WHAT LINE CODE: the same as seen, of code in C
c_seen() {
  echo "$3" > "$work/made_up.c"
  is "$1" "$2" "$(c_cycles "$work/made_up.c")"
}
c_seen 'no recursion in C' '2 functions, 2 calls' 'static int f(int n) { return n; } int g(int n) { return f(f(n)); }'
c_seen 'a function in C that calls itself' 'f calls itself' 'static int f(int n) { return n ? f(n - 1) : 0; } int g(int n) { return f(n); }'
c_seen 'functions in C by way of each other' 'f calls itself by way of g' \
  'int g(int n); static int f(int n) { return g(n); } int g(int n) { return n ? f(n - 1) : 0; }'
c_seen 'a call through a pointer in C' "a call in g is not by a function's name" 'int g(int (*f)(int)) { return f(0); }'

# code_seen WHAT LINE CODE: the same of a program
code_seen() {
  echo "$3" > "$work/made_up.c"
  if gcc -O0 -o "$work/made_up" "$work/made_up.c" > "$work/said" 2>&1; then is "$1" "$2" "$(code_cycles "$work/made_up")"; else bad "$1: $(cat "$work/said")"; fi
}
code_seen 'no recursion in a program' '2 functions, 1 calls' 'static int f(int n) { return n; } int main(void) { return f(1); }'
code_seen 'a function in a program that calls itself' 'f calls itself' 'static int f(int n) { return n ? f(n - 1) : 0; } int main(void) { return f(1); }'
code_seen 'functions in a program by way of each other' 'f calls itself by way of g' \
  'int g(int n); int f(int n) { return n ? g(n - 1) : 0; } int g(int n) { return f(n); } int main(void) { return f(1); }'
code_seen 'a call through a pointer in a program' "a call in main is not by a function's name" 'int main(int n, char **words) { int (*f)(int, char **) = n ? main : 0; return n && words ? f(0, 0) : 0; }'

# ---- the crates of crates.txt. Their functions must be in the MIR, or in rt's modules, each with its name, or a call could go unseen.
in_source() { sed 's|//.*||' "crates/$1"/src/*.rt | grep -oE '(^|[^a-zA-Z0-9_])fn +[a-zA-Z0-9_]+' | sed 's/.* //' | sort; }
# What stands in the MIR and in no source: a closure with what calls it, whose names are below its function's; what ends a value; a variant that is
# handed to the kit as a function; a derived `default` or `eq`, or `clone` of a type with a parameter.
in_mir() {
  grep -oE "\\[\"$1::[^\"]*\",\\{\"lifetimes\":[0-9]" "$work/crates/$1.mir" | sed -E 's/^\["([^"]*)".*/\1/' |
    grep -vE '::fn::|\+none::drop$|\+[A-Z][A-Za-z]*\+FnOnce::call_once$|(Default::default|PartialEq::eq|Clone::clone)$' | sed 's/.*://' | sort
}
# Whether a crate is a part of the library. The others are the programs, and what opens files for them, and the two archives.
is_inside() { [ ! -f "crates/$1/src/main.rt" ] && [ "$1" != files ] && ! grep -qE "^$1 +staticlib" crates.txt; }
# settled WHAT STATUS SAID: no recursion in it, or a failure for each
settled() {
  if [ "$2" -eq 0 ]; then
    ok
    echo "$1: $3, no recursion"
  else
    while read -r line; do bad "$1: $line"; done <<< "$3"
  fi
}
mkdir "$work/crates"
inside=()
while read -r crate; do
  if is_inside "$crate"; then
    inside+=("$crate")
  elif modules_of "$crate" > "$work/trouble"; then
    is "cycles of calls in $crate" '' "$(rings "$crate")"
    for function in $(in_source "$crate"); do
      if has_module "$crate" "$function"; then ok; else bad "the function $function of $crate is unseen: rt has no module of it"; fi
    done
  else
    bad "rt writes no modules of $crate: $(cat "$work/trouble")"
  fi
done < <(sed -nE 's/^([a-zA-Z0-9_]+)( +staticlib)?:.*/\1/p' crates.txt)
# rt has seen to it just now that all below those crates is built from its sources as they are
for crate in "${inside[@]}"; do
  if mir_of "$crate" > "$work/crates/$crate.mir"; then
    is "functions of $crate that are in its source or in its MIR alone" '' "$(comm -3 <(in_source "$crate") <(in_mir "$crate") | tr -s '\t\n' ' ')"
  else
    bad "rt has left no MIR of $crate: $(cat "$work/crates/$crate.mir")"
    rm "$work/crates/$crate.mir"
  fi
done
for folder in crates/*; do
  crate=${folder#crates/}
  if [ -f "$work/crates/$crate.mir" ] || [ -d "$work/modules/$crate" ]; then ok; else bad "the functions of $folder are unseen: it is not in crates.txt, or rt has not built it"; fi
done
said=$(cycles "$work"/crates/*.mir)
settled 'the crates of the library' $? "$said"
# the test program stays where rt builds it
(cd crates/follow && rt run) > "$work/said" 2>&1 < /dev/null || bad "crates/follow: $(complaints)"
for program in target/bin/tzelmaruf target/bin/maker crates/follow/out/follow; do
  if [ -x "$program" ]; then
    said=$(code_cycles "$program")
    settled "$program" $? "$said"
  else
    bad "there is no $program: build it with 'commands/build ${program##*/}', or 'rt run' in its crate"
  fi
done
for file in host/*.c; do
  said=$(c_cycles "$file")
  settled "$file" $? "$said"
done

echo "$passed passed, $failed failed"
[ "$failed" -eq 0 ]
