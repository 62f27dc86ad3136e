/* Redistribution: the same table by rows and by columns.
 *
 * Sums along the rows need no word from other nodes while the rows are spread, and sums down the columns need none while
 * the columns are. The table lies on one template by rows; one gmove copies it into an array that lies on a second
 * template by columns, so that both sums are local. A second gmove writes a row of the one into a column of the other.
 */
#define N 60
#define M 40

int a[N][M], b[N][M], across[N], down[M];
#pragma xmp nodes p(4)
#pragma xmp template rows(N)
#pragma xmp template columns(0:M-1)
#pragma xmp distribute rows(block) onto p
#pragma xmp distribute columns(cyclic(3)) onto p
#pragma xmp align a[x][*] with rows(x+1)
#pragma xmp align across[x] with rows(x+1)
#pragma xmp align b[*][y] with columns(y)
#pragma xmp align down[y] with columns(y)

int main(void) {
  int i, j, widest = 0, tallest = 0, total = 0, again = 0, probe;

#pragma xmp loop (i) on rows(i+1)
  for (i = 0; i < N; i++)
    for (j = 0; j < M; j++)
      a[i][j] = (i * 17 + j * 29) % 83;

#pragma xmp loop (i) on rows(i+1) reduction(+:total) reduction(max:widest)
  for (i = 0; i < N; i++) {
    int sum = 0;
    for (j = 0; j < M; j++) sum += a[i][j];
    across[i] = sum;
    total += sum;
    if (sum > widest) widest = sum;
  }

#pragma xmp gmove
  b[:][:] = a[:][:];
#pragma xmp loop (j) on columns(j) reduction(+:again) reduction(max:tallest)
  for (j = 0; j < M; j++) {
    int sum = 0;
    for (i = 0; i < N; i++) sum += b[i][j];
    down[j] = sum;
    again += sum;
    if (sum > tallest) tallest = sum;
  }

  /* every other cell of row 7 down column 5 */
#pragma xmp gmove
  b[0:M / 2][5] = a[7][0:M / 2:2];
#pragma xmp gmove
  probe = b[19][5];

#pragma xmp task on p(1)
  {
    printf("by rows %d, by columns %d\n", total, again);
    printf("greatest row %d, greatest column %d\n", widest, tallest);
    printf("row 7, cell 38: %d\n", probe);
  }
  return 0;
}
