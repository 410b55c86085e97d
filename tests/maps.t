The map of the words, which `--map=1` prints after the journal: a line for each row and for each free run, and how many
blocks of each size fit.

  $ z() { printf "%${1}s" '' | tr ' ' z; }

  $ apcu_run --shm-size=4096 --slots=32 --map=1 << 'END'
  > worker
  > apcu_store s:1:"a"; i:5;
  > apcu_fetch s:1:"a";
  > END
  worker 0
  b:1;
  i:5;b:1;
  journal
  0
  0
  0
  map
  row 32 16 1 s:1:"a";
  free 48 464
  free words 464
  largest 464
  runs 1
  fits 16 29
  fits 32 14
  fits 64 7
  fits 128 3
  fits 256 1

  $ apcu_run --shm-size=4096 --slots=32 --map=1 < /dev/null
  journal
  map
  free 32 480
  free words 480
  largest 480
  runs 1
  fits 16 30
  fits 32 15
  fits 64 7
  fits 128 3
  fits 256 1

No free run crosses the border of two segments.

  $ apcu_run --map 1 --segments=2 --slots=32 --shm-size=4k < /dev/null
  journal
  map
  free 32 480
  free 512 512
  free words 992
  largest 512
  runs 2
  fits 16 62
  fits 32 31
  fits 64 15
  fits 128 7
  fits 256 3
  fits 512 1

  $ apcu_run --map 0 --shm-size=4k --slots=32 < /dev/null
  journal

The block of a deleted row is free.

  $ {
  >   echo worker
  >   for key in a b c; do echo "apcu_store s:1:\"$key\"; s:1168:\"$(z 1168)\";"; done
  >   echo 'apcu_delete s:1:"a";'
  > } | apcu_run --shm-size=4096 --slots=32 --map=1
  worker 0
  b:1;
  b:1;
  b:1;
  b:1;
  journal
  0
  0
  0
  0
  0
  map
  free 32 160
  row 192 160 2 s:1:"b";
  row 352 160 3 s:1:"c";
  free words 160
  largest 160
  runs 1
  fits 16 10
  fits 32 5
  fits 64 2
  fits 128 1
