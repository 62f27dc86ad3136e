/* Task parallelism: three computations that do not need each other, on three sets of nodes at the same time.
 *
 * The tasks of one tasks directive share no node. What a task assigns is known to its own nodes alone; a bcast from one of
 * them tells the rest. A barrier ends the first part. Each task may print where it runs on one node; the lines stand in
 * the order of the text, whichever node was first.
 */
#pragma xmp nodes p(6)

/* b to the power e, modulo m: 31 binary digits at most, so the loop is counted */
int power(int b, int e, int m) {
  int k;
  long r = 1, s = b % m;
  for (k = 0; k < 31; k++) {
    if (e % 2 == 1) r = r * s % m;
    s = s * s % m;
    e /= 2;
  }
  return r;
}

int main(void) {
  int k, n, perfect = 0, inverse = 0, check;
  long a = 0, b = 1;

#pragma xmp tasks
  {
#pragma xmp task on p(1:2)
    /* Fibonacci numbers */
    for (k = 0; k < 80; k++) {
      long c = a + b;
      a = b;
      b = c;
    }
#pragma xmp task on p(3:5)
    /* the greatest perfect number below 500 */
    for (n = 2; n < 500; n++) {
      int sum = 0;
      for (k = 1; k < n; k++)
        if (n % k == 0) sum += k;
      if (sum == n) perfect = n;
    }
#pragma xmp task on p(6)
    /* an inverse modulo a prime, by Fermat */
    {
      inverse = power(1234567, 1000000005, 1000000007);
      printf("node 5 has found it\n");
    }
  }

#pragma xmp barrier
#pragma xmp bcast (a) from p(1)
#pragma xmp bcast (perfect) from p(4)
#pragma xmp bcast (inverse) from p(6)

  check = (int)(1234567L * inverse % 1000000007);
#pragma xmp task on p(1)
  {
    printf("fibonacci(80) = %ld\n", a);
    printf("greatest perfect number below 500: %d\n", perfect);
    printf("1 / 1234567 = %d, and the product is %d\n", inverse, check);
  }
  return 0;
}
