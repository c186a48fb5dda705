/* A farm: a master hands numbers out to whichever worker is free, and adds up their squares, as in farm.occ. */
#ifndef WORKERS
#define WORKERS 3
#endif
#define TASKS (WORKERS + 2)

chan task[WORKERS] = [0] of { short };
chan result[WORKERS] = [0] of { short };

proctype worker (byte i) {
  short n;
  do
  :: task[i] ? n ->
    if
    :: n < 0 -> break
    :: else -> result[i] ! n * n
    fi
  od
}

proctype master () {
  byte w, count; short next, square, sum;
  do
  :: w < WORKERS -> task[w] ! next; next++; w++
  :: else -> break
  od;
  do
  :: count < TASKS ->
    if
    :: result[0] ? square -> w = 0
    :: result[1] ? square -> w = 1
#if WORKERS > 2
    :: result[2] ? square -> w = 2
#endif
#if WORKERS > 3
    :: result[3] ? square -> w = 3
#endif
#if WORKERS > 4
    :: result[4] ? square -> w = 4
#endif
    fi;
    sum = sum + square;
    if
    :: next < TASKS -> task[w] ! next; next++
    :: else -> task[w] ! -1
    fi;
    count++
  :: else -> break
  od
}

init {
  byte i;
  atomic {
    do
    :: i < WORKERS -> run worker(i); i++
    :: else -> break
    od;
    run master()
  }
}
