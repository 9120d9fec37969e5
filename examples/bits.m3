# One bit in each row: it is its own square, so a*a + a is 0.
table t { column a : b1; zero z : a*a + a; }
