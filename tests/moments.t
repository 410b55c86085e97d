The second of a call: by `--use-request-time=1` that of the start of its request, else that of the last line `time` or
`request`.

A row is fresh while its request lasts, however long that is, and has expired in a later one.

  $ apcu_run --shm-size=4096 --slots=32 --use-request-time=1 << 'END'
  > worker
  > request i:100;
  > apcu_store s:1:"a"; i:1; i:10;
  > time i:200;
  > apcu_fetch s:1:"a";
  > request i:111;
  > apcu_fetch s:1:"a";
  > END
  worker 0
  b:1;
  i:1;b:1;
  b:0;b:0;
  journal
  0
  0
  0
  0

  $ apcu_run --shm-size=4096 --slots=32 --use-request-time=0 << 'END'
  > worker
  > request i:100;
  > apcu_store s:1:"a"; i:1; i:10;
  > time i:200;
  > apcu_fetch s:1:"a";
  > request i:111;
  > apcu_fetch s:1:"a";
  > END
  worker 0
  b:1;
  b:0;b:0;
  b:0;b:0;
  journal
  0
  0
  0
  0

Without a request every call is at second 0.

  $ apcu_run --shm-size=4096 --slots=32 --use-request-time=1 << 'END'
  > worker
  > time i:100;
  > apcu_store s:1:"a"; i:1; i:10;
  > time i:200;
  > apcu_exists s:1:"a";
  > END
  worker 0
  b:1;
  b:1;
  journal
  0
  0
  0

  $ apcu_run --shm-size=4096 --slots=32 --use-request-time=0 << 'END'
  > worker
  > time i:100;
  > apcu_store s:1:"a"; i:1; i:10;
  > time i:200;
  > apcu_exists s:1:"a";
  > END
  worker 0
  b:1;
  b:0;
  journal
  0
  0
  0

A line `time` before the start of the request, and two lines `request` in a row.

  $ apcu_run --shm-size=4096 --slots=32 --use-request-time=1 << 'END'
  > worker
  > time i:5;
  > request i:100;
  > request i:90;
  > apcu_store s:1:"a"; i:1; i:10;
  > time i:100;
  > apcu_exists s:1:"a";
  > time i:101;
  > apcu_exists s:1:"a";
  > END
  worker 0
  b:1;
  b:1;
  b:1;
  journal
  0
  0
  0
  0

  $ apcu_run --shm-size=4096 --slots=32 --use-request-time=0 << 'END'
  > worker
  > time i:5;
  > request i:100;
  > request i:90;
  > apcu_store s:1:"a"; i:1; i:10;
  > time i:100;
  > apcu_exists s:1:"a";
  > time i:101;
  > apcu_exists s:1:"a";
  > END
  worker 0
  b:1;
  b:1;
  b:0;
  journal
  0
  0
  0
  0

Each worker has a request of its own, and a script begins at second 0.

  $ apcu_run --shm-size=4096 --slots=32 --use-request-time 1 << 'END' | sed '/^journal$/q'
  > worker
  > request i:100;
  > apcu_store s:1:"a"; i:1; i:10;
  > time i:200;
  > apcu_exists s:1:"a";
  > worker
  > apcu_store s:1:"b"; i:1; i:10;
  > time i:50;
  > apcu_exists s:1:"b";
  > request i:11;
  > apcu_exists s:1:"b";
  > END
  worker 0
  b:1;
  b:1;
  worker 1
  b:1;
  b:1;
  b:0;
  journal
