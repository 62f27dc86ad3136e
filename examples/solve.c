/* Forward substitution: l * x = b for a lower triangular matrix l with ones on its diagonal, column by column.
 *
 * Once x[k] is known to all nodes, by a gmove from the owner of b[k], each node takes its share off its own rows below k.
 * The rows above k have nothing left to do. In blocks the first nodes would soon be idle, so the rows are dealt out in
 * small groups (cyclic(4)), and every node stays busy nearly to the end.
 */
#define N 120

int l[N][N], x[N];
long b[N];
#pragma xmp nodes p(4)
#pragma xmp template t(0:N-1)
#pragma xmp distribute t(cyclic(4)) onto p
#pragma xmp align l[r][*] with t(r)
#pragma xmp align b[r] with t(r)

int main(void) {
  int i, j, k, wrong = 0;
  long right, sum = 0;

  /* the right side belongs to the solution x[j] = j % 9 - 4 */
#pragma xmp loop (i) on t(i)
  for (i = 0; i < N; i++) {
    for (j = 0; j < i; j++) l[i][j] = (i * 5 + j * 3) % 7 - 3;
    l[i][i] = 1;
    b[i] = 0;
    for (j = 0; j < i + 1; j++) b[i] += l[i][j] * (j % 9 - 4);
  }
#pragma xmp loop (i) on t(i) reduction(+:sum)
  for (i = 0; i < N; i++)
    sum += b[i];

  for (k = 0; k < N; k++) {
#pragma xmp gmove
    right = b[k];
    x[k] = right;
#pragma xmp loop (i) on t(i)
    for (i = k + 1; i < N; i++)
      b[i] -= l[i][k] * right;
  }

  for (k = 0; k < N; k++)
    if (x[k] != k % 9 - 4) wrong++;
#pragma xmp task on p(1)
  {
    printf("right side adds up to %ld\n", sum);
    printf("x[0] = %d, x[60] = %d, x[119] = %d, wrong: %d\n", x[0], x[60], x[119], wrong);
  }
  return 0;
}
