/* Prefix sums by doubling (Hillis and Steele): after the round with distance d, cell i has the sum of 2 * d cells up to it.
 *
 * In each round a gmove shifts the whole array by d cells, across the blocks of the nodes, into a second array with the same
 * alignment; then each node adds what came to its own cells. Since d doubles, the loop is uncounted: ten source steps.
 */
#define N 1000

int a[N], b[N], first[N];
#pragma xmp nodes p(4)
#pragma xmp template t(0:N-1)
#pragma xmp distribute t(block) onto p
#pragma xmp align a[x] with t(x)
#pragma xmp align b[x] with t(x)
#pragma xmp align first[x] with t(x)
#pragma xmp shadow a[1:0]

int main(void) {
  int i, d, rounds = 0, wrong = 0, half, last;

#pragma xmp loop (i) on t(i)
  for (i = 0; i < N; i++) {
    first[i] = i * 37 % 101;
    a[i] = first[i];
  }

  for (d = 1; d < N; d *= 2) {
#pragma xmp gmove
    b[d:N - d] = a[0:N - d];
#pragma xmp loop (i) on t(i)
    for (i = d; i < N; i++)
      a[i] += b[i];
    rounds++;
  }

  /* each sum is the one before it and one number more */
#pragma xmp reflect (a)
#pragma xmp loop (i) on t(i) reduction(+:wrong)
  for (i = 1; i < N; i++)
    if (a[i] != a[i - 1] + first[i]) wrong++;
#pragma xmp gmove
  half = a[N / 2 - 1];
#pragma xmp gmove
  last = a[N - 1];

#pragma xmp task on p(1)
  printf("%d rounds, %d wrong, half way %d, in all %d\n", rounds, wrong, half, last);
  return 0;
}
