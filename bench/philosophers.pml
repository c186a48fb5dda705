/* Philosophers at a table whose forks are processes, as in philosophers.occ. */
#ifndef SEATS
#define SEATS 4
#endif

chan left[SEATS] = [0] of { bit };
chan right[SEATS] = [0] of { bit };

proctype philosopher (byte i) {
  left[i] ! 1; right[i] ! 1; left[i] ! 0; right[i] ! 0
}

proctype fork (byte i, other) {
  byte meals; bit any;
  do
  :: meals < 2 ->
    if
    :: left[i] ? any -> left[i] ? any
    :: right[other] ? any -> right[other] ? any
    fi;
    meals++
  :: else -> break
  od
}

init {
  byte i;
  atomic {
    do
    :: i < SEATS -> run philosopher(i); run fork(i, (i + SEATS - 1) % SEATS); i++
    :: else -> break
    od
  }
}
