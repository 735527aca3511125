# The argument, but at most 100.
main(n) var most, over {
  most := 100;
  over := most < n;
  if over goto 3 else 4;
  return most;
  return n;
}
