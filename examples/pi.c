/* Monte Carlo: pi from points in a square that fall into the circle.
 *
 * Each stream of points has a seed of its own, so the points do not depend on how many nodes there are. The nodes array
 * takes its size from the command line ([*]), and the streams are dealt out in turn (cyclic). Every node counts the hits
 * of its streams; the reductions add up the hits and find the best and the worst stream.
 */
#define STREAMS 64
#define POINTS 400
#define R 32768

#pragma xmp nodes p(*)
#pragma xmp template t(0:STREAMS-1)
#pragma xmp distribute t(cyclic) onto p

/* a linear congruential generator: 31 bits, of which the upper 15 are taken */
long next(long x) {
  return (x * 1103515245 + 12345) % 2147483648;
}

long coordinate(long x) {
  return x / 65536 % R;
}

int main(void) {
  int i, k, hits = 0, best = 0, worst = POINTS;
  long points = STREAMS * POINTS;

#pragma xmp loop (i) on t(i) reduction(+:hits) reduction(max:best) reduction(min:worst)
  for (i = 0; i < STREAMS; i++) {
    long seed = i * 7919 + 17;
    int inside = 0;
    for (k = 0; k < POINTS; k++) {
      long x, y;
      seed = next(seed);
      x = coordinate(seed);
      seed = next(seed);
      y = coordinate(seed);
      if (x * x + y * y < R * (long)R) inside++;
    }
    hits += inside;
    if (inside > best) best = inside;
    if (inside < worst) worst = inside;
  }

#pragma xmp task on p(1)
  {
    printf("%d of %ld points lie in the circle\n", hits, points);
    printf("a stream of %d has %d to %d of them\n", POINTS, worst, best);
    printf("pi is about %ld / 1000\n", (4000L * hits + points / 2) / points);
  }
  return 0;
}
