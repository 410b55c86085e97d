Scripts that are refused, with the byte at which they are wrong and the reason. Nothing is printed, and no call is made.

  $ printf 'worker\napcu_store s:1:"a"; i:5;' | apcu_run --shm-size=4096 --slots=32
  apcu_run: script: byte 31: end
  [2]

  $ apcu_run --shm-size=4096 --slots=32 << 'END'
  > worker
  > apcu_store s:1:"a"; i:5; N;
  > END
  apcu_run: script: byte 32: argument
  [2]

  $ apcu_run --shm-size=4096 --slots=32 << 'END'
  > worker
  > apcu_store s:1:"a"; i:5;,
  > END
  apcu_run: script: byte 31: separator
  [2]

  $ apcu_run --shm-size=4096 --slots=32 << 'END'
  > worker
  > apcu_store s:1:"a";
  > END
  apcu_run: script: byte 26: argument
  [2]

  $ apcu_run --shm-size=4096 --slots=32 << 'END'
  > worker
  > apcu_store i:1; i:5;
  > END
  apcu_run: script: byte 18: argument
  [2]

  $ printf %s 'worker' | apcu_run --shm-size=4096 --slots=32
  apcu_run: script: byte 6: end
  [2]

  $ apcu_run --shm-size=4096 --slots=32 << 'END'
  > worker 1
  > END
  apcu_run: script: byte 7: argument
  [2]

  $ apcu_run --shm-size=4096 --slots=32 << 'END'
  > apcu_fetch s:1:"a";
  > END
  apcu_run: script: byte 0: line
  [2]

  $ apcu_run --shm-size=4096 --slots=32 << 'END'
  > worker
  > 
  > END
  apcu_run: script: byte 7: line
  [2]

  $ apcu_run --shm-size=4096 --slots=32 << 'END'
  > 
  > END
  apcu_run: script: byte 0: line
  [2]

  $ apcu_run --shm-size=4096 --slots=32 << 'END'
  > worker
  > worker
  > APCUIterator s:2:"/(";
  > END
  apcu_run: script: byte 27: argument
  [2]
