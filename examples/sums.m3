# Two tables of one file: pairs of inverses, and an adder. Each table has rows of its own.

# Each row holds an element of 8 bits and its inverse.
table inverses {
  column value : b8;
  column inverse : b8;
  zero product : value * inverse + 1;
}

# Each row adds two bits and a carry.
table adder {
  column a : b1;
  column b : b1;
  column carry_in : b1;
  column sum : b1;
  column carry_out : b1;
  zero total : a + b + carry_in + sum;
  zero carry : (a + carry_in) * (b + carry_in) + carry_in + carry_out;
}
