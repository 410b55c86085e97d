Caches of several segments. `z N` prints the letter z N times.

  $ z() { printf "%${1}s" '' | tr ' ' z; }

Statistics of two segments of 512 words, of which the first has 480 for blocks.

  $ apcu_run --shm-size=4096 --slots=32 --segments=2 << 'END'
  > worker
  > apcu_sma_info b:0;
  > apcu_sma_info b:1;
  > END
  worker 0
  a:4:{s:7:"num_seg";i:2;s:8:"seg_size";i:4096;s:9:"avail_mem";i:7936;s:11:"block_lists";a:2:{i:0;a:1:{i:0;a:2:{s:4:"size";i:3840;s:6:"offset";i:256;}}i:1;a:1:{i:0;a:2:{s:4:"size";i:4096;s:6:"offset";i:0;}}}}
  a:3:{s:7:"num_seg";i:2;s:8:"seg_size";i:4096;s:9:"avail_mem";i:7936;}
  journal
  0
  0
  0

A block of 514 words is too large for either segment, one of 512 fills the second, and one of 480 the first.

  $ apcu_run --shm-size=4096 --slots=32 --segments=2 << END
  > worker
  > apcu_store s:1:"a"; s:3985:"$(z 3985)";
  > apcu_store s:1:"a"; s:3984:"$(z 3984)";
  > apcu_store s:1:"b"; s:3728:"$(z 3728)";
  > apcu_exists s:1:"a";
  > END
  worker 0
  b:0;
  b:1;
  b:1;
  b:1;
  journal
  0
  0
  0
  0
  0

No block crosses the border of two segments. In two segments of 34 words, four rows of 16 words are stored, and the
two next to the border are deleted: 18 words then fit nowhere, so the cache is expunged.

  $ apcu_run --shm-size=272 --slots=2 --segments=2 << END
  > worker
  > apcu_store a:4:{s:1:"a";i:1;s:1:"b";i:1;s:1:"c";i:1;s:1:"d";i:1;}
  > apcu_delete a:2:{i:0;s:1:"b";i:1;s:1:"c";}
  > apcu_store s:1:"e"; s:16:"$(z 16)";
  > apcu_exists s:1:"a";
  > apcu_delete s:1:"e";
  > apcu_store s:1:"e"; s:32:"$(z 32)";
  > apcu_exists a:2:{i:0;s:1:"a";i:1;s:1:"d";}
  > END
  worker 0
  a:0:{}
  a:0:{}
  b:1;
  b:1;
  b:1;
  b:1;
  a:0:{}
  journal
  0
  0
  0
  0
  0
  0
  0
  0
  0
  0
  0
  0
  0

A value that is too large to be stored is given by `apcu_entry` all the same.

  $ apcu_run --shm-size=4096 --slots=32 << END | sed "s/$(z 3729)/3729 z/"
  > worker
  > apcu_entry s:1:"k"; (s:3729:"$(z 3729)";)
  > apcu_exists s:1:"k";
  > END
  worker 0
  s:3729:"3729 z";
  b:0;
  journal
  0
  0
  0
