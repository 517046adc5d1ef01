# What run and against share: `timing` built from a commit, and the time of one of its calls. Not run by itself.
root=$(cd "$(dirname "${BASH_SOURCE[0]}")" && git rev-parse --show-toplevel)
TIMEFORMAT=%3U

# In a clone at COMMIT, the program that this commit has beside this file is proved and built: build FOLDER COMMIT. A commit from before the
# repository came to this Rattle proves nothing with it.
build() {
  git clone -q "$root" "$1"
  cd "$1"
  git checkout -q "$2"
  mkdir -p crates/timing/src crates/timing/proofs/rounds crates/timing/proofs/grown
  cp bench/store/main.rt.txt crates/timing/src/main.rt
  cp bench/store/rounds.antt.txt crates/timing/proofs/rounds/Invariants.antt
  cp bench/store/grown.antt.txt crates/timing/proofs/grown/Invariants.antt
  cat bench/store/crate.txt >> crates.txt
  printf 0 > crates/timing/stdout
  (cd crates/timing && rt run) < /dev/null > build.log 2>&1 || { tail -5 build.log; exit 1; }
  cd "$OLDPWD"
}

# The processor time, in microseconds, of one call on a store of so many objects, in one try: try PROGRAM CALL OBJECTS ROUNDS.
# It is the difference between many rounds and few, so that filling the store does not count.
try() {
  local few many accepted
  few=$( { time "$1" "$2" "$3" 100 > "$work/few"; } 2>&1 )
  many=$( { time "$1" "$2" "$3" "$(($4 + 100))" > "$work/many"; } 2>&1 )
  accepted=$(cat "$work/few")$(cat "$work/many")
  [ "$accepted" = "100$(($4 + 100))" ] || { echo "a call was refused: $2 $3" >&2; exit 1; }
  awk -v a="$few" -v b="$many" -v n="$4" 'BEGIN { printf "%.2f\n", (b - a) * 1e6 / n }'
}

# What both go through: the name of a call, its letter, the rounds.
calls='insert:I:400000 step:S:200000 find:F:400000 confirm:C:200000'

# An insert at 16 is that of the sixteenth object: the store holds one fewer. A step is taken where a flush begins at three quarters or more.
held() {
  if [ "$1" = I ]; then echo "$(($2 - 1))"; else echo "$2"; fi
}
