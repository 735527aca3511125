# One straight procedure. Its parameter is a, its local variable y.
main(a) var y {
  y := a + 0;     # add_zero makes this y := a
  return y;
}
