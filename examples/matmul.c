/* Matrix product c = a * b, all three matrices in blocks of rows.
 *
 * A row of c needs all rows of b. They come a strip at a time: a gmove copies STRIP rows of b, wherever they lie, into
 * the strip w, which is not aligned and so has a copy on every node. Then each node adds the strip's share to its rows
 * of c. The product of two matrices with a known product shows that the sums are right.
 */
#define N 48
#define STRIP 12

int a[N][N], b[N][N], c[N][N], w[STRIP][N];
#pragma xmp nodes p(4)
#pragma xmp template t(N)
#pragma xmp distribute t(block) onto p
#pragma xmp align a[x][*] with t(x+1)
#pragma xmp align b[x][*] with t(x+1)
#pragma xmp align c[x][*] with t(x+1)

int main(void) {
  int i, j, k, q, wrong = 0, corner;
  long trace = 0, total = 0;

  /* a adds up the rows up to its own, b takes differences of neighbouring rows of the matrix i * i + j */
#pragma xmp loop (i) on t(i+1)
  for (i = 0; i < N; i++)
    for (j = 0; j < N; j++) {
      a[i][j] = j <= i;
      b[i][j] = i == 0 ? j : 2 * i - 1;
    }

  for (q = 0; q < N; q += STRIP) {
#pragma xmp gmove
    w[:][:] = b[q:STRIP][:];
#pragma xmp loop (i) on t(i+1)
    for (i = 0; i < N; i++)
      for (j = 0; j < N; j++) {
        int sum = c[i][j];
        for (k = 0; k < STRIP; k++) sum += a[i][q + k] * w[k][j];
        c[i][j] = sum;
      }
  }

#pragma xmp loop (i) on t(i+1) reduction(+:wrong, trace, total)
  for (i = 0; i < N; i++)
    for (j = 0; j < N; j++) {
      if (c[i][j] != i * i + j) wrong++;
      if (i == j) trace += c[i][j];
      total += c[i][j];
    }
#pragma xmp gmove
  corner = c[N - 1][N - 1];

#pragma xmp task on p(1)
  {
    printf("%d x %d, wrong cells: %d\n", N, N, wrong);
    printf("corner %d, trace %ld, total %ld\n", corner, trace, total);
  }
  return 0;
}
