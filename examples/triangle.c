/* Load balance by blocks of unequal length: Pascal's triangle modulo a prime, row sums and odd entries.
 *
 * Row i of a triangle costs i turns, so equal blocks of rows would give the last node seven times the work of the first.
 * gblock lists how many rows each node gets; with 120, 50, 38 and 32 rows each has about a quarter of the triangle.
 * Each entry is a product of factorials and their inverses, which every node has copies of.
 */
#define N 240
#define P 1009

int factorial[N], inverse[N], c[N][N];
#pragma xmp nodes p(4)
#pragma xmp template t(0:N-1)
#pragma xmp distribute t(gblock({120, 50, 38, 32})) onto p
#pragma xmp align c[x][*] with t(x)

int main(void) {
  int i, j, k, odd = 0, wrong = 0, entry;
  long total = 0;

  factorial[0] = 1;
  for (k = 1; k < N; k++)
    factorial[k] = factorial[k - 1] * k % P;
  /* an inverse is the power P - 2, here found by a counted loop */
  for (k = 0; k < N; k++) {
    int r = 1;
    for (j = 0; j < P - 2; j++) r = r * factorial[k] % P;
    inverse[k] = r;
  }

#pragma xmp loop (i) on t(i)
  for (i = 0; i < N; i++)
    for (j = 0; j < i + 1; j++)
      c[i][j] = factorial[i] * inverse[j] % P * inverse[i - j] % P;

#pragma xmp loop (i) on t(i) reduction(+:odd, total, wrong)
  for (i = 0; i < N; i++) {
    int sum = 0, power = 1;
    for (j = 0; j < i + 1; j++) {
      odd += c[i][j] & 1;
      sum = (sum + c[i][j]) % P;
    }
    for (j = 0; j < i; j++) power = power * 2 % P;
    total += sum;
    if (sum != power) wrong++;
  }
#pragma xmp gmove
  entry = c[20][10];

#pragma xmp task on p(1)
  {
    printf("rows whose sum is no power of two: %d\n", wrong);
    printf("sums %ld, odd remainders %d\n", total, odd);
    printf("entry 20, 10: %d\n", entry);
  }
  return 0;
}
