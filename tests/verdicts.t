Verdicts. `--verify=N` says that the input is N bytes of scripts and then an output, and prints whether the scripts can
print it. `judged SIZE SLOTS OUTPUT` asks for that of the scripts in the file `script`.

  $ judged() { { cat script; printf "$3"; } | apcu_run --shm-size="$1" --slots="$2" --verify="$(wc -c < script)"; }

One worker: the replies, the journal, a line too many, one without its line feed, a text that ends too early.

  $ cat > script << 'END'
  > worker
  > apcu_store s:1:"a"; i:5;
  > apcu_fetch s:1:"a";
  > END
  $ judged 4096 32 'worker 0\nb:1;\ni:5;b:1;\njournal\n0\n0\n0\n'
  yes
  $ judged 4096 32 'worker 0\nb:1;\ni:6;b:1;\njournal\n0\n0\n0\n'
  no: byte 16
  apcu_run: differs
  [9]
  $ judged 4096 32 'worker 0\nb:1;\ni:5;b:1;\njournal\n0\n0\n'
  no: event 2
  apcu_run: differs
  [9]
  $ judged 4096 32 'worker 0\nb:1;\ni:5;b:1;\njournal\n0 0\n0\n0\n'
  no: event 0
  apcu_run: differs
  [9]
  $ judged 4096 32 'worker 0\nb:1;\ni:5;b:1;\n'
  no: journal
  apcu_run: differs
  [9]
  $ judged 4096 32 ''
  no: journal
  apcu_run: differs
  [9]
  $ judged 4096 32 'worker 0\nb:1;\ni:5;b:1;\njournal\n0\n0\n0\n0\n'
  no: event 3
  apcu_run: differs
  [9]
  $ judged 4096 32 'worker 0\nb:1;\ni:5;b:1;\njournal\n0\n0\n0'
  no: event 2
  apcu_run: differs
  [9]
  $ judged 4096 32 'journal\n0\n0\n0\n'
  no: byte 0
  apcu_run: differs
  [9]

Without scripts there is no event.

  $ : > script
  $ judged 4096 32 'journal\n'
  yes
  $ judged 4096 32 'journal\n0\n'
  no: event 0
  apcu_run: differs
  [9]

The masks of the journal. Worker 1 deletes a block of 18 words while worker 0 copies it: there is no room for another
one in 30 words until that copy has ended.

  $ cat > script << 'END'
  > worker
  > apcu_store s:1:"a"; a:1:{i:0;i:5;}
  > apcu_fetch s:1:"a";
  > worker
  > apcu_delete s:1:"a";
  > apcu_store s:1:"b"; i:1;
  > apcu_store s:1:"b"; i:1;
  > END
  $ judged 256 2 'worker 0\nb:1;\na:1:{i:0;i:5;}b:1;\nworker 1\nb:1;\nb:0;\nb:1;\njournal\n0\n0\n1 0\n1 0\n0\n1\n1\n'
  yes
  $ judged 256 2 'worker 0\nb:1;\na:1:{i:0;i:5;}b:1;\nworker 1\nb:1;\nb:0;\nb:1;\njournal\n0\n0\n1 0\n1\n0\n1\n1\n'
  no: byte 49
  apcu_run: differs
  [9]
  $ judged 256 2 'worker 0\nb:1;\na:1:{i:0;i:5;}b:1;\nworker 1\nb:1;\nb:0;\nb:1;\njournal\n0\n0\n1 0\n1 0\n0\n1 0\n1\n'
  no: event 5
  apcu_run: differs
  [9]

Scripts that are refused, whatever the output is, and an input that is too short.

  $ apcu_run --verify=6 << 'END'
  > worker
  > apcu_store s:1:"a"; i:5;
  > apcu_fetch s:1:"a";
  > END
  apcu_run: script: byte 6: end
  [2]

  $ apcu_run --verify=53 << 'END'
  > worker
  > apcu_store s:1:"a"; i:5;
  > apcu_fetch s:1:"a";
  > END
  apcu_run: script: byte 52: end
  [2]

  $ apcu_run --verify=67108864 << 'END'
  > no script
  > END
  apcu_run: script: byte 10: end
  [2]

  $ apcu_run --verify=10 << 'END'
  > no script
  > journal
  > END
  apcu_run: script: byte 0: line
  [2]

  $ apcu_run --verify=87 --slots 1048576 << 'END'
  > worker
  > APCUIterator N;
  > APCUIterator N;
  > APCUIterator N;
  > APCUIterator N;
  > APCUIterator N;
  > END
  apcu_run: too many events
  [7]

  $ apcu_run --shm-size=4096 --slots=32 --verify=31 << 'END'
  > worker
  > APCUIterator s:3:"/(/";
  > END
  apcu_run: pattern
  [8]

  $ apcu_run --shm-size=4096 --slots=32 --verify=31 << 'END'
  > worker
  > APCUIterator s:3:"/(/";
  > journal
  > 1
  > END
  apcu_run: pattern
  [8]

A map that is not asked for.

  $ apcu_run --verify=52 --map=0 << 'END'
  > worker
  > apcu_store s:1:"a"; i:5;
  > apcu_fetch s:1:"a";
  > END
  no: journal
  apcu_run: differs
  [9]
