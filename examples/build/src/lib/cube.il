# The cube of the argument.
square(n) var result {
  result := n * n;
  return result;
}
main(n) var cell, result {
  cell := &n;
  result := *cell;
  result := square(result);
  result := result * n;
  return result;
}
