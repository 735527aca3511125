# Counts n down to 0. Whatever count does, it cannot change the y of main.
count(n) var rest {
  if n goto 1 else 3;
  rest := n - 1;
  rest := count(rest);
  return rest;
}
main(a) var y, z {
  y := 3;
  z := count(a);
  return y;
}
