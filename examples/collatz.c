/* Collatz: the longest chain of n -> n / 2 or 3 * n + 1 down to 1, for all starts below N.
 *
 * How long a chain is varies without pattern, so the starts are dealt out in turn (cyclic), on as many nodes as the command
 * line says. A loop directive may hold no while: the chain is followed by a counted loop that is long enough, and does
 * nothing once the chain has ended. The second loop finds the least start with the longest chain, by a min reduction.
 */
#define N 3000
#define TURNS 220

int length[N];
#pragma xmp nodes p(*)
#pragma xmp template t(0:N-1)
#pragma xmp distribute t(cyclic) onto p
#pragma xmp align length[x] with t(x)

int main(void) {
  int i, k, longest = 0, start = N, open = 0;
  long steps = 0, highest = 0;

#pragma xmp loop (i) on t(i) reduction(+:steps, open) reduction(max:longest, highest)
  for (i = 1; i < N; i++) {
    long n = i;
    int turns = 0;
    for (k = 0; k < TURNS; k++)
      if (n != 1) {
        n = n % 2 == 0 ? n / 2 : 3 * n + 1;
        turns++;
        if (n > highest) highest = n;
      }
    length[i] = turns;
    steps += turns;
    if (turns > longest) longest = turns;
    if (n != 1) open++;
  }

#pragma xmp loop (i) on t(i) reduction(min:start)
  for (i = 1; i < N; i++)
    if (length[i] == longest)
      if (i < start) start = i;

#pragma xmp task on p(1)
  {
    printf("chains not ended after %d turns: %d\n", TURNS, open);
    printf("steps in all: %ld, highest number: %ld\n", steps, highest);
    printf("longest chain: %d steps, from %d\n", longest, start);
  }
  return 0;
}
