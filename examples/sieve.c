/* The sieve of Eratosthenes, with twin primes.
 *
 * The table of composite numbers lies in blocks on four nodes. Whether q is prime is known to its owner alone; a gmove to
 * a scalar tells all nodes, which then strike out the multiples of q among their own numbers. A step that is no constant
 * would make the loop uncounted, so it visits every number from q * q on and tests it.
 * Twins stand two apart: an upper shadow of two cells, reflected once, lets each node look beyond its block.
 */
#define N 10000

int composite[N];
#pragma xmp nodes p(4)
#pragma xmp template t(0:N-1)
#pragma xmp distribute t(block) onto p
#pragma xmp align composite[x] with t(x)
#pragma xmp shadow composite[0:2]

int main(void) {
  int i, q, c, primes = 0, twins = 0, greatest = 0;
  long sum = 0;

#pragma xmp loop (i) on t(i)
  for (i = 0; i < 2; i++)
    composite[i] = 1;

  for (q = 2; q * q < N; q++) {
#pragma xmp gmove
    c = composite[q];
    if (c == 0) {
#pragma xmp loop (i) on t(i)
      for (i = q * q; i < N; i++)
        if (i % q == 0) composite[i] = 1;
    }
  }

#pragma xmp reflect (composite)
#pragma xmp loop (i) on t(i) reduction(+:primes, twins, sum) reduction(max:greatest)
  for (i = 0; i < N; i++)
    if (composite[i] == 0) {
      primes++;
      sum += i;
      if (i > greatest) greatest = i;
      if (i + 2 < N && composite[i + 2] == 0) twins++;
    }

#pragma xmp task on p(1)
  {
    printf("primes below %d: %d, the greatest is %d\n", N, primes, greatest);
    printf("their sum: %ld\n", sum);
    printf("pairs of twins: %d\n", twins);
  }
  return 0;
}
