/* Conway's game of life: the R-pentomino on a square board whose rim stays empty.
 *
 * Rows and columns are both cut, over a 2 x 2 array of nodes. A cell looks at eight neighbours, so a node needs the cells
 * next to its block on the sides and also at the corners, which belong to the node diagonally opposite; reflect fills
 * the corners of the shadow too.
 */
#define N 40
#define GENERATIONS 60

int a[N][N], b[N][N];
#pragma xmp nodes p(2, 2)
#pragma xmp template t(0:N-1, 0:N-1)
#pragma xmp distribute t(block, block) onto p
#pragma xmp align a[x][y] with t(x, y)
#pragma xmp align b[x][y] with t(x, y)
#pragma xmp shadow a[1][1]

int main(void) {
  int i, j, g, alive, upper, births = 0;

  /*  . X X
   *  X X .
   *  . X .  in the middle */
#pragma xmp loop (i, j) on t(i, j)
  for (i = 0; i < N; i++)
    for (j = 0; j < N; j++)
      a[i][j] = (i == 19 && (j == 20 || j == 21)) || (i == 20 && (j == 19 || j == 20)) || (i == 21 && j == 20);

  for (g = 1; g <= GENERATIONS; g++) {
#pragma xmp reflect (a)
#pragma xmp loop (i, j) on t(i, j)
    for (i = 1; i < N - 1; i++)
      for (j = 1; j < N - 1; j++) {
        int near = a[i - 1][j - 1] + a[i - 1][j] + a[i - 1][j + 1] + a[i][j - 1]
                 + a[i][j + 1] + a[i + 1][j - 1] + a[i + 1][j] + a[i + 1][j + 1];
        b[i][j] = near == 3 || (near == 2 && a[i][j]);
      }
    alive = 0;
    upper = 0;
#pragma xmp loop (i, j) on t(i, j) reduction(+:alive, upper, births)
    for (i = 1; i < N - 1; i++)
      for (j = 1; j < N - 1; j++) {
        births += b[i][j] > a[i][j];
        alive += b[i][j];
        if (i < N / 2) upper += b[i][j];
        a[i][j] = b[i][j];
      }
    if (g % 10 == 0) {
#pragma xmp task on p(1, 1)
      printf("generation %2d: %3d alive, %3d of them in the upper half\n", g, alive, upper);
    }
  }

#pragma xmp task on p(1, 1)
  printf("births: %d\n", births);
  return 0;
}
