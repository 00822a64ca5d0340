#!/bin/sh
# Says of each program of this folder, which is about how texts are read, whether Ruby and mruby write what stands
# beside it, and whether `rite` compiles it and writes the same. The status is 1 where one of these isn't so. Not part
# of the tests: it needs Ruby and mruby.
rite=${1:?usage: check.sh RITE}
folder=$(dirname "$0")
made=$(mktemp -d)
status=0

# Whether the command writes what stands in the file.
writes() {
  expected=$1
  shift
  "$@" </dev/null 2>/dev/null | cmp -s - "$expected"
}

# Says what isn't so.
fault() {
  echo "$1"
  status=1
}

# A source of one line that Ruby reads and that is refused here, and the construct for which it is.
outside() {
  printf '%s\n' "$1" >"$made/outside.rb"
  ruby -c "$made/outside.rb" >/dev/null 2>&1 || fault "$1: refused by Ruby"
  said=$("$rite" build "$made/outside.rb" "$made/outside.mrb" 2>&1)
  case $said in
    "refused: Outside $2 at "*) echo "$1: $said" ;;
    *) fault "$1: ${said:-built}" ;;
  esac
}

for file in "$folder"/*.rb; do
  name=$(basename "$file" .rb)
  if ! writes "$folder/$name.out" ruby "$file"; then
    fault "$name: another output of Ruby"
  elif ! writes "$folder/$name.out" mruby "$file"; then
    fault "$name: another output of mruby"
  elif said=$("$rite" build "$file" "$made/$name.mrb" 2>&1); then
    if writes "$folder/$name.out" "$rite" exec "$file" "$made/$name.mrb"; then
      echo "$name: runs"
    else
      fault "$name: another output"
    fi
  else
    fault "$name: $said"
  fi
done

# What Ruby reads and the language leaves out. In a string `#` begins an interpolation before the name of a variable,
# also before one that the language doesn't have: it isn't text.
outside 'p "#$!"' SpecialGlobal   # a punctuation mark that names a variable
outside 'p "#$1"' SpecialGlobal   # digits
outside 'class A; p "#@@x"; end' ClassVariable
outside 'p $!' SpecialGlobal
outside 'class A; p @@x; end' ClassVariable
# After a name and white space a mark that white space doesn't follow may begin an argument or stand between operands.
outside 'x = 4; p x /2' Ambiguous
outside 'puts ?a' Ambiguous
outside 'puts %(a)' Ambiguous
# Operators.
outside 'x = 1; p x &.succ' SafeNavigation
outside 'p(1 =~ nil)' MatchOperator
outside 'def f(**x); end' DoubleSplat

rm -r "$made"
exit $status
