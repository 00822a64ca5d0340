#!/bin/sh
# Says of each program of this folder whether Ruby writes what stands beside it in every row but those that are marked
# as not Ruby's, in how many rows mruby writes something else, and, where RITE is given, whether `rite exec` writes the
# same. Where `rite` refuses the program, each row is tried as a program of its own. The status is 1 where Ruby writes
# something else, or `rite` does in a row that it builds. Not part of the tests: it needs Ruby 3.1 and mruby.
#
#   examples/calls/check.sh [RITE]
rite=$1
folder=$(dirname "$0")
made=$(mktemp -d)
status=0

# The numbers of the rows in which a command writes something else than the file.
others() {
  expected=$1
  shift
  "$@" </dev/null 2>/dev/null | diff -a - "$expected" | sed -n 's/^[<>] \([0-9][0-9]*\) .*/\1/p' | sort -nu
}

# Tries the rows one by one: writes the numbers of those in which `rite` writes something else, and counts the refused.
one_by_one() {
  sed '/^row(/,$d' "$1" >"$made/definitions.rb"
  grep -a '^row(' "$1" >"$made/rows"
  number=0
  refused=0
  while IFS= read -r row; do
    number=$((number + 1))
    { cat "$made/definitions.rb"; printf '%s\n' "$row"; } >"$made/row.rb"
    if ! "$rite" build "$made/row.rb" "$made/row.mrb" >/dev/null 2>&1; then
      refused=$((refused + 1))
    elif [ "$("$rite" exec "$made/row.rb" "$made/row.mrb" </dev/null 2>/dev/null | tail -n 1)" != \
      "$(grep -a "^$number " "$2" | tail -n 1)" ]; then
      echo "$number"
    fi
  done <"$made/rows" >"$made/rite"
  said="$said; refused by rite: $refused rows"
}

for file in "$folder"/*.rb; do
  name=$(basename "$file" .rb)
  out=$folder/$name.out
  sed -n "s/^row(\([0-9]*\)).* # not Ruby's: .*/\1/p" "$file" >"$made/marked"
  others "$out" ruby -W0 --disable-all "$file" >"$made/ruby"
  others "$out" mruby "$file" >"$made/mruby"
  said="$(grep -ac '^row(' "$file") rows, $(wc -l <"$made/marked") not Ruby's, $(wc -l <"$made/mruby") not mruby's"
  if ! cmp -s "$made/marked" "$made/ruby"; then
    said="$said; Ruby differs in other rows than those marked"
    status=1
  fi
  if [ -n "$rite" ]; then
    if "$rite" build "$file" "$made/whole.mrb" >/dev/null 2>&1; then
      others "$out" "$rite" exec "$file" "$made/whole.mrb" >"$made/rite"
    else
      one_by_one "$file" "$out"
    fi
    said="$said; not rite's: $(wc -l <"$made/rite") rows"
    if [ -s "$made/rite" ]; then
      said="$said, $(head -n 20 "$made/rite" | tr '\n' ' ')"
      status=1
    fi
  fi
  echo "$name: $said"
done
rm -r "$made"
exit $status
