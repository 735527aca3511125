# The sum of the numbers from 1 to the argument.
main(n) var zero, sum {
  zero := 0;
  sum := zero;
  if n goto 3 else 6;
  sum := sum + n;
  n := n - 1;
  goto 2;
  return sum;
}
