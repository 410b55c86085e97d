Bundles: `--preload=N` says that the input begins with a bundle of N bytes.

A worker behind those of the scripts stores the bundle first.

  $ apcu_run --shm-size=4096 --slots=32 --preload=14 << 'END'
  > s:1:"a"; i:5;
  > worker
  > apcu_fetch s:1:"a";
  > END
  worker 0
  i:5;b:1;
  worker 1
  b:1;
  journal
  1
  1
  0
  0

The last record of a key is the one that stays.

  $ apcu_run --shm-size=4k --slots=32 --preload=28 << 'END'
  > s:1:"a"; i:1;
  > s:1:"a"; i:2;
  > worker
  > apcu_fetch s:1:"a";
  > END
  worker 0
  i:2;b:1;
  worker 1
  b:1;
  b:1;
  journal
  1
  1
  1
  0
  0

An empty bundle, an input that is a bundle alone, and nothing at all.

  $ apcu_run --shm-size=4k --slots=32 --preload=0 << 'END'
  > worker
  > apcu_exists s:1:"a";
  > END
  worker 0
  b:0;
  worker 1
  journal
  1
  0
  0

  $ apcu_run --shm-size=4k --slots=32 --preload=14 << 'END'
  > s:1:"a"; i:5;
  > END
  worker 0
  b:1;
  journal
  0
  0

  $ apcu_run --shm-size=4k --slots=32 --preload=0 < /dev/null
  worker 0
  journal
  0

The seconds of the scripts do not apply to the bundle: its values are stored at second 0, for ever.

  $ apcu_run --shm-size=4k --slots=32 --preload=14 --use-request-time=1 << 'END'
  > s:1:"a"; i:5;
  > worker
  > request i:4000000000;
  > apcu_fetch s:1:"a";
  > END
  worker 0
  i:5;b:1;
  worker 1
  b:1;
  journal
  1
  1
  0
  0

With a map of the words.

  $ apcu_run --shm-size=4096 --slots=32 --preload=14 --map=1 << 'END'
  > s:1:"a"; i:5;
  > END
  worker 0
  b:1;
  journal
  0
  0
  map
  row 32 16 1 s:1:"a";
  free 48 464
  free words 464
  largest 464
  runs 1
  fits 16 29
  fits 32 14
  fits 64 7
  fits 128 3
  fits 256 1

Bundles that are refused. Scripts are read after the bundle, and their bytes are counted from the start of the input.

  $ apcu_run --preload=15 << 'END'
  > s:1:"a"; i:05;
  > END
  apcu_run: bundle: byte 11: number
  [10]

  $ apcu_run --preload=15 << 'END'
  > s:1:"a"; i:5;
  > END
  apcu_run: bundle: byte 14: end
  [10]

  $ printf %s 'no bundle' | apcu_run --preload=67108864
  apcu_run: bundle: byte 9: end
  [10]

  $ apcu_run --preload=13 << 'END'
  > s:1:"a"; i:5;
  > worker
  > END
  apcu_run: bundle: byte 13: end
  [10]

  $ apcu_run --preload=14 << 'END'
  > s:1:"a";,i:5;
  > worker
  > END
  apcu_run: bundle: byte 8: separator
  [10]

  $ apcu_run --preload=10 << 'END'
  > i:1; i:5;
  > no script
  > END
  apcu_run: bundle: byte 0: argument
  [10]

  $ apcu_run --preload=14 << 'END'
  > s:1:"a"; i:5;
  > worker
  > apcu_fetch x
  > END
  apcu_run: script: byte 32: tag
  [2]

  $ printf 's:1:"a"; i:5;\nworker' | apcu_run --preload=14
  apcu_run: script: byte 20: end
  [2]

The bundle has a worker too, and there are 64 at most.

  $ yes worker | head -n 64 | apcu_run --preload=0
  apcu_run: too many events
  [7]
