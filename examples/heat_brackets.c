/* Heat in a rod: an explicit 1-D stencil, in whole numbers.
 *
 * The cells of the rod lie in blocks on four nodes (nodes, template, distribute, align). Each node also holds the nearest
 * cell of either neighbour (shadow), which goes stale with every step and is fetched anew before it is read (reflect).
 * A loop directive gives each node the turns of its own cells; the totals are reductions, and a single cell comes to all
 * nodes by a gmove to a scalar.
 */
#define N 1000
#define STEPS 100

long u[N], v[N];
#pragma xmp nodes p[4]
#pragma xmp template t[N]
#pragma xmp distribute t[block] onto p
#pragma xmp align u[x] with t[x]
#pragma xmp align v[x] with t[x]
#pragma xmp shadow u[1]

int main(void) {
  int i, step;
  long total = 0, hottest = 0, middle, edge;

  /* the middle fifth is hot; both ends stay cold */
#pragma xmp loop (i) on t[i]
  for (i = 0; i < N; i++)
    u[i] = i >= 400 && i < 600 ? 1000000 : 0;

  for (step = 0; step < STEPS; step++) {
#pragma xmp reflect (u)
#pragma xmp loop (i) on t[i]
    for (i = 1; i < N - 1; i++)
      v[i] = u[i] + (u[i - 1] - 2 * u[i] + u[i + 1]) / 4;
#pragma xmp loop (i) on t[i]
    for (i = 1; i < N - 1; i++)
      u[i] = v[i];
  }

#pragma xmp loop (i) on t[i] reduction(+:total) reduction(max:hottest)
  for (i = 0; i < N; i++) {
    total += u[i];
    if (u[i] > hottest) hottest = u[i];
  }
#pragma xmp gmove
  middle = u[N / 2];
#pragma xmp gmove
  edge = u[400];

#pragma xmp task on p[0]
  {
    printf("after %d steps\n", STEPS);
    printf("total   %10ld\n", total);
    printf("hottest %10ld\n", hottest);
    printf("middle  %10ld\n", middle);
    printf("edge    %10ld\n", edge);
  }
  return 0;
}
