#!/bin/bash
# Runs the built program over real files: files.sh [PATH OF xmpc], which is ../crates/xmpc/out/xmpc beside this file where no path is given.
# Words, statuses, sizes at their limits, files that can't be read, outputs that can't be written, and numbers read from an input file.
# It needs neither root nor a network, and makes its files in a folder of its own, which it removes.
xmpc=$(realpath -m "${1:-$(dirname "$0")/../crates/xmpc/out/xmpc}")
folder=$(mktemp -d) && trap 'rm -rf "$folder"' EXIT && cd "$folder" || exit 1
right=0 wrong=0
[ -x "$xmpc" ] || { echo "files: there is no program $xmpc"; exit 1; }

# judge STATUS OUT ERR GOT WHAT: what a run came to, with what it wrote in the files out and err.
judge() {
  if [ "$4" = "$1" ] && [ "$(cat out)" = "$2" ] && [ "$(cat err)" = "$3" ]; then
    right=$((right + 1))
  else
    echo "files: $5: status $4, '$(head -c 80 out)' and '$(head -c 80 err)', in place of $1, '$2' and '$3'"
    wrong=$((wrong + 1))
  fi
}

# wants STATUS OUT ERR WORD ..: one run.
wants() {
  local status=$1 out=$2 err=$3
  shift 3
  "$xmpc" "$@" >out 2>err </dev/null
  judge "$status" "$out" "$err" $? "$*"
}

# full out|err STATUS OTHER WORD ..: one run with a full device as one of its outputs; OTHER is due on the other one.
full() {
  local which=$1 status=$2 other=$3
  shift 3
  : >out; : >err
  if [ "$which" = out ]; then
    "$xmpc" "$@" >/dev/full 2>err </dev/null
    judge "$status" '' "$other" $? "$* >/dev/full"
  else
    "$xmpc" "$@" >out 2>/dev/full </dev/null
    judge "$status" "$other" '' $? "$* 2>/dev/full"
  fi
}

# grown FILE FRONT PIECE BYTES: a file of so many bytes, the front and then pieces.
grown() {
  { printf '%s' "$2"; yes "$3" | tr '\n' ' '; } | head -c "$4" >"$1"
}

# prints at one node, however many there are
cat >seven.c <<'C'
#pragma xmp nodes p(*)
int main() {
#pragma xmp task on p(1)
  printf("%d\n", 7);
}
C
echo 'int main() { printf("%d\n", 7); }' >all.c
echo 'int main() { x; }' >syntax.c
echo 'int main() { x = 1; }' >name.c
: >empty.c
printf '\001\377\000' >bytes.c
echo 'int main() { int z; printf("a\n"); z = 1 / z; }' >trap.c
echo 'int main() { printf("a\n"); while (1) ; }' >endless.c
echo 'int main() { int k; for (k = 0; k < 5000000; k++) ; while (k < 5000001) k++; printf("%d\n", k); }' >counted.c
# sums until a sentinel that isn't in the input: behind its end scanf leaves the target, so -1 stays
cat >sum.c <<'C'
long sum, n;
int main() {
  n = 0;
  while (n != -1) {
    sum += n;
    n = -1;
    scanf("%ld", &n);
  }
  scanf("%ld", &n);
  printf("%ld %ld\n", sum, n);
}
C
cat >many.c <<'C'
long sum;
int main() {
  long n;
  int k;
  for (k = 0; k < 8400000; k++) {
    n = 0;
    scanf("%ld", &n);
    sum += n;
  }
  printf("%ld\n", sum);
}
C
printf '10 +20\n\t-3  9223372036854775807\r\n-9223372036854775807 5' >numbers
grown full.c 'int main() {}' '' 1048576
grown over.c 'int main() {}' '' 1048577
grown full '' 1 16777216
grown over '' 1 16777217

# forms of words, and words of no form
wants 0 accepted '' check seven.c
wants 0 accepted '' check --nodes=2 seven.c
wants 3 '' 'refused F7 at 1:14' check --nodes=2 all.c
wants 0 accepted '' check all.c
wants 0 accepted '' check --nodes=00000000000000000016 seven.c
wants 0 7 '' serial seven.c
wants 0 7 '' serial --steps=18446744073709551615 --nodes=16 seven.c
wants 0 7 '' serial --nodes=16 --input=/dev/null --steps=0 seven.c
for words in '' check serial run 'check --nodes=0 seven.c' 'check --nodes=17 seven.c' 'check --nodes= seven.c' 'check --nodes=1 --nodes=1 seven.c' \
  'check --nodes=000000000000000000016 seven.c' 'check --steps=1 seven.c' 'check --input=seven.c seven.c' 'serial --steps=18446744073709551616 seven.c' \
  'serial --steps=000000000000000000001 seven.c' 'serial --steps=-1 seven.c' 'serial seven.c --steps=1' 'serial seven.c seven.c' 'serial --order=1 seven.c' \
  'check --help' 'serial --input= seven.c x' 'serial --input=--x seven.c' 'run --nodes=4 seven.c' 'check -- seven.c' 'CHECK seven.c' 'build seven.c'; do
  wants 4 '' usage $words
done

# many words: they are read in a loop, and no stack grows with them
mapfile -t many < <(yes x | head -n 190000)
wants 4 '' usage check "${many[@]}" seven.c

# files that can't be read; the verdict comes before the input is read
wants 5 '' 'read fault' check nothing.c
wants 5 '' 'read fault' check .
wants 5 '' 'read fault' run nothing.c
wants 5 '' 'read fault' serial --input=nothing seven.c
wants 3 '' 'refused S1 at 1:15' serial --input=nothing syntax.c
wants 3 '' 'refused N1 at 1:14' serial --input=nothing name.c
wants 3 '' 'refused N1 at 1:14' check name.c
wants 3 '' 'refused S1 at 1:1' check empty.c
wants 3 '' 'refused L1 at 1:1' check bytes.c

# sizes
wants 0 accepted '' check full.c
wants 0 '' '' serial full.c
for form in check serial run; do wants 8 '' 'too large' $form over.c; done
wants 8 '' 'too large' check /dev/zero
wants 0 7 '' serial --input=full seven.c
wants 8 '' 'too large' serial --input=over seven.c
wants 8 '' 'too large' serial --input=/dev/zero seven.c
wants 8 '' 'too large' serial --input=nothing over.c
wants 3 '' 'refused N1 at 1:14' serial --input=over name.c

# inputs
wants 0 '32 -1' '' serial --input=numbers sum.c
wants 0 '0 -1' '' serial sum.c
wants 0 8388608 '' serial --input=full many.c

# traps and steps: what was printed stays
wants 1 a 'trapped zero at 1:42' serial trap.c
wants 0 accepted '' check trap.c
wants 2 a 'out of steps' serial endless.c
wants 2 a 'out of steps' serial --steps=0 endless.c
wants 0 5000001 '' serial --steps=1 counted.c
wants 2 '' 'out of steps' serial --steps=0 counted.c

# outputs that can't be written, and nothing due on one
full out 6 '' check seven.c
full out 6 '' serial seven.c
full out 0 '' serial full.c
full out 3 'refused N1 at 1:14' check name.c
full err 6 '' check name.c
full err 6 ''
full err 6 a serial trap.c
full err 0 7 serial seven.c

[ $wrong -eq 0 ] || exit 1
echo "files: $right right"
