/* Mean, variance and extremes of numbers that are read from the input: first how many, then the numbers.
 *
 * Input belongs to node 0, so scanf stands in a task on it. What it read is then known to node 0 alone, until bcast
 * tells the others. Each number goes into w, which every node has a copy of; a gmove spreads the copy over the nodes,
 * and reductions do the rest. A missing number reads as 0.
 */
#define MOST 100

int w[MOST], a[MOST];
#pragma xmp nodes p(3)
#pragma xmp template t(0:MOST-1)
#pragma xmp distribute t(block) onto p
#pragma xmp align a[x] with t(x)

int main(void) {
  int i, k, n, x, least, greatest, above = 0;
  long sum = 0, squares = 0, mean = 0;

#pragma xmp task on p(1)
  scanf("%d", &n);
#pragma xmp bcast (n) from p(1)
  if (n < 1) n = 1;
  if (n > MOST) n = MOST;

  for (k = 0; k < n; k++) {
#pragma xmp task on p(1)
    {
      x = 0;
      scanf("%d", &x);
    }
#pragma xmp bcast (x) from p(1)
    w[k] = x;
  }
#pragma xmp gmove
  a[0:n] = w[0:n];

  least = w[0];
  greatest = w[0];
#pragma xmp loop (i) on t(i) reduction(+:sum) reduction(min:least) reduction(max:greatest)
  for (i = 0; i < n; i++) {
    sum += a[i];
    if (a[i] < least) least = a[i];
    if (a[i] > greatest) greatest = a[i];
  }
  mean = sum / n;
#pragma xmp loop (i) on t(i) reduction(+:squares, above)
  for (i = 0; i < n; i++) {
    squares += (a[i] - mean) * (a[i] - mean);
    if (a[i] > mean) above++;
  }

#pragma xmp task on p(1)
  {
    printf("%d numbers from %d to %d\n", n, least, greatest);
    printf("sum %ld, mean %ld, variance %ld\n", sum, mean, squares / n);
    printf("above the mean: %d\n", above);
  }
  return 0;
}
