Scripts that `--generate=N` makes from the number N. The summary depends on N, the workers and the calls alone.

  $ apcu_run --generate 0 --workers 1 --calls 0 < /dev/null
  workers 1
  calls 0
  inserts 0
  counter 0 0
  counter 1 0
  counter 2 0
  counter 3 0
  counter 4 0
  counter 5 0
  counter 6 0
  counter 7 0

It is the same under each clock and with a limit of seconds, and the input is not read.

  $ apcu_run --use-request-time=1 --ttl=1 --calls=1 --workers=1 --generate=0 << 'END'
  > no script
  > END
  workers 1
  calls 1
  inserts 1
  counter 0 0
  counter 1 0
  counter 2 0
  counter 3 0
  counter 4 0
  counter 5 0
  counter 6 0
  counter 7 93

The same workers and calls give the same summary each time.

  $ apcu_run --generate 7 --workers 8 --calls 20000 < /dev/null > first
  $ apcu_run --generate 7 --workers 8 --calls 20000 < /dev/null | cmp - first
  $ head -n 2 first
  workers 8
  calls 160000

More events than a run has: of calls alone, and with the observer's nine.

  $ apcu_run --generate 0 --workers 5 --calls 1000000 < /dev/null
  apcu_run: too many events
  [7]

  $ apcu_run --generate 0 --workers 8 --calls 524286 < /dev/null
  apcu_run: too many events
  [7]
