# Sums of words of 32 bits, each of which is asked for by a boundary: the triples that the
# table pushes are those that the boundaries pull, each as often.
channel sums : 3;
boundary pull sums (1, 2, 3);
boundary pull sums (0xffffffff, 1, 0);
boundary pull sums (0, 0, 0);
table adder {
  column a : b1 x 32;
  column b : b1 x 32;
  column cout : b1 x 32;
  virtual cin = shl(cout, 5, 1);
  virtual sum = linear(a + b + cin);
  virtual a32 = pack(a, 5);
  virtual b32 = pack(b, 5);
  virtual s32 = pack(sum, 5);
  zero carry : (a + cin) * (b + cin) + cin + cout;
  push sums (a32, b32, s32);
}
