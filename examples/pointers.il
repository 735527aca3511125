# The pointer p leads to x and not to y. So the write changes x, and y is 4 to the end.
main(a) var x, y, p {
  x := 3;
  y := 4;
  p := &x;
  *p := 5;
  a := y;
  return x;
}
