/* The mean of the numbers of the input above a bound, with a slip: there may be none.
 *
 * The program is accepted, since it means what it says; without an input no number is above the bound, and the division
 * traps on every node alike. xmpc says so with the place of the operator, and keeps what was printed before.
 */
#define MOST 50

int w[MOST], n, i, above;
long sum;
#pragma xmp nodes p(*)

int main(void) {
#pragma xmp task on p(1)
  {
    scanf("%d", &n);
    for (i = 0; i < MOST; i++) {
      if (i < n) scanf("%d", &w[i]);
      if (i < n && w[i] > 10) {
        sum += w[i];
        above++;
      }
    }
    printf("%d numbers, %d above 10\n", n, above);
    printf("their mean is %ld\n", sum / above);
  }
  return 0;
}
