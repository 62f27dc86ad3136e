/* Heat in a rod, with a slip: the shadow is fetched once, before the steps, and not in each of them.
 *
 * The first step reads right values. The second reads, beside each block, cells of the neighbour that are a step old: a
 * program that ran would print numbers that are nearly right. xmpc refuses it at the first such read. The remedy is to
 * move the reflect into the loop over the steps, as in heat.c.
 */
#define N 1000
#define STEPS 100

long u[N], v[N];
#pragma xmp nodes p(4)
#pragma xmp template t(0:N-1)
#pragma xmp distribute t(block) onto p
#pragma xmp align u[x] with t(x)
#pragma xmp align v[x] with t(x)
#pragma xmp shadow u[1]

int main(void) {
  int i, step;
  long total = 0;

#pragma xmp loop (i) on t(i)
  for (i = 0; i < N; i++)
    u[i] = i >= 400 && i < 600 ? 1000000 : 0;

#pragma xmp reflect (u)
  for (step = 0; step < STEPS; step++) {
#pragma xmp loop (i) on t(i)
    for (i = 1; i < N - 1; i++)
      v[i] = u[i] + (u[i - 1] - 2 * u[i] + u[i + 1]) / 4;
#pragma xmp loop (i) on t(i)
    for (i = 1; i < N - 1; i++)
      u[i] = v[i];
  }

#pragma xmp loop (i) on t(i) reduction(+:total)
  for (i = 0; i < N; i++)
    total += u[i];

#pragma xmp task on p(1)
  printf("total %ld\n", total);
  return 0;
}
