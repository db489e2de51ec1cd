#!/bin/sh
# wrong.sh [NAME ..]: builds a wrong library from each edit oracle/wrong/NAME.edit (all without names) and expects the run
# to find it. FOLDER/crates and FOLDER/crates.txt are edited in a copy, FOLDER being SOURCES or the repository itself;
# BOARDS, PLATE and SEED say how long each run is. Prints for each edit what found it; the last line counts.
set -u
root=$(cd "$(dirname "$0")/.." && pwd -P)
sources=$(cd "${SOURCES:-$root}" && pwd -P)
work=$root/target/wrong
[ $# -gt 0 ] || set -- $(cd "$root/oracle/wrong" && ls *.edit | sed 's/\.edit$//')
found=0 missed=0

# The library without an edit passes: else the run finds nothing.
mkdir -p "$work"
# try NAME: builds work/NAME and runs the comparison. 0: it passed; 1: it saw a difference, was killed by a signal or did
# not end in time; 2: there is no library, or the run could not be built.
try() {
  "$root/oracle/unproved.sh" "$work/$1" "$work/$1/built" >"$work/$1/log" 2>&1 || return 2
  PLATE_LIB=$work/$1/built/libplate.a timeout 300 "$root/oracle/run.sh" boards "${BOARDS:-1000}" plate "${PLATE:-100}" \
    seed "${SEED:-1}" >"$work/$1/said" 2>&1
  status=$?
  [ $status -ne 0 ] || return 0
  grep -q DIFFERENCE "$work/$1/said" || [ $status -ge 124 ] || return 2
  return 1
}
# without what rt keeps of its checks
copy() { rm -rf "$work/$1" && mkdir -p "$work/$1" && tar -C "$sources" --exclude=out -cf - crates crates.txt | tar -C "$work/$1" -xf -; }

copy unedited
try unedited || { echo "wrong.sh: the library without an edit does not pass: $work/unedited/log, said"; exit 1; }
for name; do
  copy "$name"
  python3 - "$root/oracle/wrong/$name.edit" "$work/$name" <<'EOS' || { missed=$((missed + 1)); continue; }
import sys
lines = open(sys.argv[1]).read().splitlines()
fields = dict(line.split(": ", 1) for line in lines)
path = sys.argv[2] + "/" + fields["file"]
old, new = (fields[key].replace("\\n", "\n") for key in ("old", "new"))
text = open(path).read()
if text.count(old) != 1:
    sys.exit(f"{sys.argv[1]}: its text stands {text.count(old)} times in {fields['file']}")
open(path, "w").write(text.replace(old, new))
EOS
  try "$name"
  case $? in
  0) missed=$((missed + 1)) && echo "$name: NOT FOUND" ;;
  1) found=$((found + 1)) && echo "$name: found: $(tail -n1 "$work/$name/said" | cut -c1-160)" ;;
  *) missed=$((missed + 1)) && echo "$name: not built, see $work/$name/log and said" ;;
  esac
done
echo "$found found, $missed missed"
[ "$missed" -eq 0 ]
