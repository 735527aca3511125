# Each statement is replaced once, by the first rule that applies.
main(a) var x, y, z {
  x := a + 0;                       # zero_right
  y := 0 + x;                       # zero_left
  z := 1 + 1;                       # one_and_one
  z := 9223372036854775807 + 1;     # wrap
  z := x + y;                       # swap: take_one is refused, and gives nothing
  y := z;                           # none: add_nothing is refused
  z := z + 2;                       # none: swap wants two variables
  return z;
}
