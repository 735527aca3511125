main(a) var x, y {
  x := a + 0;
  y := x + 1;
  return y;
}
