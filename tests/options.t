The options. Each line of `taken` is a command line with which the script is played; each line of `refused` is one that
ends the program with its usage message and status 1, whatever its input is. Both print what happens otherwise.

  $ cat > script << 'END'
  > worker
  > apcu_store s:1:"a"; i:5;
  > apcu_fetch s:1:"a";
  > END
  $ printf '%s\n' 'worker 0' 'b:1;' 'i:5;b:1;' journal 0 0 0 > replies
  $ taken() {
  >   while read -r words; do
  >     apcu_run $words < script > printed 2>&1 && cmp -s printed replies || echo "$words: $? $(cat printed)"
  >   done
  > }
  $ refused() {
  >   while read -r words; do
  >     apcu_run $words < script > printed 2>&1; status=$?
  >     [ "$status $(cat printed)" = '1 apcu_run: usage' ] || echo "$words: $status $(cat printed)"
  >   done
  > }

In any order, and none.

  $ taken << 'END'
  > --slots=32
  > --shm-size 4096 --slots 32 --ttl 0
  > --ttl 7 --shm-size 4k --slots 32
  > --slots 32 --ttl=4294967295 --shm-size=4096
  > 
  > END

Sizes, slots and seconds that no cache has, words that are no option, an option twice or without its value.

  $ refused << 'END'
  > --slots 31
  > --shm-size 4097
  > --shm-size 256
  > --ttl 4294967296
  > --help
  > --tt 0
  > --shm-size 4096 --slots 32 --ttl
  > --slots 32 --ttl 0 0
  > --ttl 7 --slots 32 --ttl 7
  > END

Segments.

  $ taken << 'END'
  > --shm-size=256 --slots=2 --segments=64
  > --shm-size=256 --slots=16 --segments 01
  > --segments=3 --shm-size=256 --slots=2
  > END

No cache has these segments.

  $ refused << 'END'
  > --shm-size=256 --slots=2 --segments=65
  > --segments=0
  > --segments=-1
  > --segments=
  > --segments
  > --segments=2 --segments=2
  > --shm-size=128M --segments=2
  > --shm-size=2097168 --segments=64
  > --shm-size=32768 --segments=2
  > --shm-size=264 --slots=2 --segments=2
  > END

Bundles.

  $ refused << 'END'
  > --preload=67108865
  > --preload=-1
  > --preload
  > --preload=14 --preload=14
  > --preload=14 --generate=0
  > --preload=14 --verify=0
  > END

Maps.

  $ refused << 'END'
  > --map=2
  > --map
  > --map=1 --map=1
  > END

Verdicts.

  $ refused << 'END'
  > --verify=67108865
  > --verify=all
  > --verify
  > --verify=52 --map=1
  > --verify=52 --preload=0
  > --verify=52 --generate=0
  > END

Generated runs.

  $ refused << 'END'
  > --shm-size 4096 --slots 32 --generate 0
  > --generate 0 --segments 2
  > --generate 0 --workers 65
  > --generate 18446744073709551616
  > --workers 0
  > --calls 1000001
  > END
