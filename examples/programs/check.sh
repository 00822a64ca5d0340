#!/bin/sh
# Says of each program of this folder whether Ruby accepts it and writes what stands beside it, and whether `rite`
# compiles it and writes the same. The status is 1 where one of these isn't so. Not part of the tests: it needs Ruby.
#
#   examples/programs/check.sh RITE
rite=${1:?usage: check.sh RITE}
folder=$(dirname "$0")
made=$(mktemp -d)
status=0

# Whether the command writes what stands in the file.
writes() {
  expected=$1
  shift
  "$@" </dev/null 2>/dev/null | cmp -s - "$expected"
}

# Says what isn't so.
fault() {
  echo "$1"
  status=1
}

for file in "$folder"/*.rb; do
  name=$(basename "$file" .rb)
  out=$folder/$name.out
  if ! ruby -c "$file" >/dev/null 2>&1; then
    fault "$name: refused by Ruby"
  elif ! writes "$out" ruby "$file"; then
    fault "$name: another output of Ruby"
  elif ! said=$("$rite" build "$file" "$made/$name.mrb" 2>&1); then
    fault "$name: $said"
  elif writes "$out" "$rite" run "$made/$name.mrb"; then
    echo "$name: runs"
  else
    fault "$name: another output"
  fi
done
rm -r "$made"
exit $status
