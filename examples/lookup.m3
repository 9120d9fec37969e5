# A lookup: pairs that one table asks for are given by another one, which proves them. A pair that
# is asked for twice is given twice. Rows whose flag is 0 ask for nothing.
channel inverses : 2;

table given {
  column value : b8;
  column inverse : b8;
  zero product : value * inverse + 1;
  push inverses (value, inverse);
}

table asked {
  column flag : b1;
  column divisor : b8;
  column quotient : b8;
  pull inverses (divisor, quotient) if flag;
}
