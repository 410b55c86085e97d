Values that are refused. A message names the byte of the input at which the value is wrong: the value begins at byte 27.

  $ apcu_run --shm-size=4096 --slots=32 << 'END'
  > worker
  > apcu_store s:1:"a"; s:4294967295:"a";
  > END
  apcu_run: script: byte 29: length
  [2]

  $ apcu_run --shm-size=4096 --slots=32 << 'END'
  > worker
  > apcu_store s:1:"a"; a:4294967295:{}
  > END
  apcu_run: script: byte 41: tag
  [2]

  $ apcu_run --shm-size=4096 --slots=32 << 'END'
  > worker
  > apcu_store s:1:"a"; a:1:{i:0;R:2;}
  > END
  apcu_run: script: byte 38: target
  [2]

  $ apcu_run --shm-size=4096 --slots=32 << 'END'
  > worker
  > apcu_store s:1:"a"; R:1;
  > END
  apcu_run: script: byte 29: target
  [2]

  $ apcu_run --shm-size=4096 --slots=32 << 'END'
  > worker
  > apcu_store s:1:"a"; i:9223372036854775808;
  > END
  apcu_run: script: byte 29: number
  [2]

  $ apcu_run --shm-size=4096 --slots=32 << 'END'
  > worker
  > apcu_store s:1:"a"; b:2;
  > END
  apcu_run: script: byte 29: number
  [2]

  $ apcu_run --shm-size=4096 --slots=32 << 'END'
  > worker
  > apcu_store s:1:"a"; i:+5;
  > END
  apcu_run: script: byte 29: number
  [2]

  $ apcu_run --shm-size=4096 --slots=32 << 'END'
  > worker
  > apcu_store s:1:"a"; a:1:{i:0;i:1;
  > END
  apcu_run: script: byte 40: mark
  [2]

  $ apcu_run --shm-size=4096 --slots=32 << 'END'
  > worker
  > apcu_store s:1:"a"; a:2:{i:0;N;i:0;N;}
  > END
  apcu_run: script: byte 38: repeat
  [2]

  $ apcu_run --shm-size=4096 --slots=32 << 'END'
  > worker
  > apcu_store s:1:"a"; a:1:{s:1:"5";N;}
  > END
  apcu_run: script: byte 32: integer
  [2]

  $ apcu_run --shm-size=4096 --slots=32 << 'END'
  > worker
  > apcu_store s:1:"a"; O:1:"-":0:{}
  > END
  apcu_run: script: byte 27: class
  [2]

  $ apcu_run --shm-size=4096 --slots=32 << 'END'
  > worker
  > apcu_store s:1:"a"; C:1:"A":0:{}
  > END
  apcu_run: script: byte 27: tag
  [2]

Arrays in arrays: 511 levels come back as they were stored, one more is refused.

  $ nested() { printf 'worker\napcu_store s:1:"a"; '; printf 'a:1:{i:0;%.0s' $(seq "$1"); printf 'N;'; printf '}%.0s' $(seq "$1"); echo; }
  $ { nested 511; echo 'apcu_fetch s:1:"a";'; } > deepest
  $ apcu_run --shm-size=1M --slots=32 < deepest > printed
  $ { echo 'worker 0'; echo 'b:1;'; sed -n '2s/.*; a:/a:/p' deepest | sed 's/$/b:1;/'; printf '%s\n' journal 0 0 0; } | cmp - printed
  $ nested 512 | apcu_run
  apcu_run: script: byte 4635: depth
  [2]
