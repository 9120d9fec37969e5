# A state machine of two registers, which goes from (a, b) to (b, a + b). Each row takes the state
# of its time out of the channel and puts in the next one. The times are the powers of an element of
# 32 bits, so that the rows may stand in any order. The boundaries put in the first state and take
# out the last one.
channel states : 3;
boundary push states (1, 1, 6);
boundary pull states (1074794496, 6, 7);

table steps {
  column time : b32;
  column a : b8;
  column b : b8;
  virtual next = linear(0x10000 * time);
  virtual sum = linear(a + b);
  pull states (time, a, b);
  push states (next, b, sum);
}
