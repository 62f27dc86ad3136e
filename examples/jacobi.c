/* Jacobi iteration for Laplace's equation on a square plate, in whole numbers, until no cell changes by more than TOL.
 *
 * The plate is cut in both dimensions over a 2 x 2 array of nodes, with a shadow of one cell on each side. Every sweep
 * reflects the shadows, takes the mean of the four neighbours, and finds the greatest change by a max reduction; the
 * while loop outside goes by that number, which all nodes know. The loop is uncounted, so each sweep costs a source step.
 */
#define N 32
#define HOT 1000000
#define TOL 200

int u[N][N], v[N][N];
#pragma xmp nodes p(2, 2)
#pragma xmp template t(0:N-1, 0:N-1)
#pragma xmp distribute t(block, block) onto p
#pragma xmp align u[x][y] with t(x, y)
#pragma xmp align v[x][y] with t(x, y)
#pragma xmp shadow u[1][1]

int main(void) {
  int i, j, sweeps = 0, change = TOL + 1, centre;
  long total = 0;

  /* the upper edge is hot, the other edges are cold */
#pragma xmp loop (i, j) on t(i, j)
  for (i = 0; i < N; i++)
    for (j = 0; j < N; j++)
      u[i][j] = i == 0 ? HOT : 0;

  while (change > TOL) {
    change = 0;
#pragma xmp reflect (u)
#pragma xmp loop (i, j) on t(i, j)
    for (i = 1; i < N - 1; i++)
      for (j = 1; j < N - 1; j++)
        v[i][j] = (u[i - 1][j] + u[i + 1][j] + u[i][j - 1] + u[i][j + 1]) / 4;
#pragma xmp loop (i, j) on t(i, j) reduction(max:change)
    for (i = 1; i < N - 1; i++)
      for (j = 1; j < N - 1; j++) {
        int d = v[i][j] - u[i][j];
        if (d < 0) d = -d;
        if (d > change) change = d;
        u[i][j] = v[i][j];
      }
    sweeps++;
  }

#pragma xmp loop (i, j) on t(i, j) reduction(+:total)
  for (i = 0; i < N; i++)
    for (j = 0; j < N; j++)
      total += u[i][j];
#pragma xmp gmove
  centre = u[N / 2][N / 2];

#pragma xmp task on p(1, 1)
  {
    printf("sweeps %d, last change %d\n", sweeps, change);
    printf("centre %d, total %ld\n", centre, total);
  }
  return 0;
}
