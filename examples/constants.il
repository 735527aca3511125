# Adds up the step n times.
main(n) var step, sum, last {
  step := 2;
  if n goto 2 else 5;
  sum := sum + step;
  n := n - 1;
  goto 1;
  last := step;
  return sum;
}
