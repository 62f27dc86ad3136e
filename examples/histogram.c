/* A histogram of pseudo-random numbers, each being the sum of three dice.
 *
 * No node may count into a table that all of them share, since its copies would then differ. So each block of samples
 * has a row of its own in the table h, whose rows are spread over the nodes (cyclic, in pairs); the counting needs no
 * word from another node. One gmove then brings the whole table to every node, and all nodes add up its columns.
 */
#define BLOCKS 32
#define SAMPLES 500
#define BINS 19

int h[BLOCKS][BINS], all[BLOCKS][BINS], count[BINS];
#pragma xmp nodes p(4)
#pragma xmp template t(0:BLOCKS-1)
#pragma xmp distribute t(cyclic(2)) onto p
#pragma xmp align h[x][*] with t(x)

/* a linear congruential generator: 31 bits */
long next(long x) {
  return (x * 1103515245 + 12345) % 2147483648;
}

int main(void) {
  int i, k, d, b, sum, total = 0, most = 0;

#pragma xmp loop (i) on t(i)
  for (i = 0; i < BLOCKS; i++) {
    long x = 7 * i + 1;
    for (k = 0; k < SAMPLES; k++) {
      sum = 0;
      for (d = 0; d < 3; d++) {
        x = next(x);
        sum += (int)(x / 65536 % 6) + 1;
      }
      h[i][sum]++;
    }
  }

#pragma xmp gmove
  all[:][:] = h[:][:];
  for (i = 0; i < BLOCKS; i++)
    for (b = 0; b < BINS; b++)
      count[b] += all[i][b];
  for (b = 0; b < BINS; b++) {
    total += count[b];
    if (count[b] > count[most]) most = b;
  }

#pragma xmp task on p(1)
  {
    for (b = 3; b < BINS; b++)
      printf("%2d %5d\n", b, count[b]);
    printf("%d throws, most often %d\n", total, most);
  }
  return 0;
}
