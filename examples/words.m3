# Sums of words of 32 bits. The carry into a bit is the carry out of the bit below it,
# and the bits of the sum, packed into one value, are the claimed one.
table adder {
  column a : b1 x 32;
  column b : b1 x 32;
  column total : b32;
  column cout : b1 x 32;
  virtual cin = shl(cout, 5, 1);
  virtual sum = linear(a + b + cin);
  virtual packed = pack(sum, 5);
  zero carry : (a + cin) * (b + cin) + cin + cout;
  zero sums : packed + total;
}
