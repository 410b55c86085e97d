What calls answer, for one key and for several. The cache has 512 words, of which 480 are for blocks.

A fetch of a key that is missing.

  $ apcu_run --shm-size=4096 --slots=32 << 'END'
  > worker
  > apcu_fetch s:1:"a";
  > END
  worker 0
  b:0;b:0;
  journal
  0
  0

`apcu_enabled` is no event.

  $ apcu_run --shm-size=4096 --slots=32 << 'END'
  > worker
  > apcu_enabled
  > END
  worker 0
  b:1;
  journal
  0

A value that is `false` is found.

  $ apcu_run --shm-size=4096 --slots=32 << 'END'
  > worker
  > apcu_store s:1:"a"; b:0;
  > apcu_fetch s:1:"a";
  > END
  worker 0
  b:1;
  b:0;b:1;
  journal
  0
  0
  0

Several keys at once, the first of which is asked for twice.

  $ apcu_run --shm-size=4096 --slots=32 << 'END'
  > worker
  > apcu_store a:2:{s:1:"a";a:1:{i:0;R:2;}i:7;i:5;} N;
  > apcu_fetch a:4:{i:0;s:1:"7";i:1;s:1:"a";i:2;s:1:"b";i:3;s:1:"7";}
  > END
  worker 0
  a:0:{}
  a:2:{i:7;i:5;s:1:"a";a:1:{i:0;R:3;}}b:1;
  journal
  0
  0
  0
  0
  0
  0
  0

  $ apcu_run --shm-size=4096 --slots=32 << 'END'
  > worker
  > apcu_store a:2:{s:1:"a";a:1:{i:0;R:2;}i:7;i:5;} N;
  > apcu_exists a:3:{i:0;s:1:"7";i:1;s:1:"b";i:2;s:1:"a";}
  > END
  worker 0
  a:0:{}
  a:2:{i:7;b:1;s:1:"a";b:1;}
  journal
  0
  0
  0
  0
  0
  0

  $ apcu_run --shm-size=4096 --slots=32 << 'END'
  > worker
  > apcu_store a:2:{s:1:"a";a:1:{i:0;R:2;}i:7;i:5;} N;
  > apcu_delete a:2:{i:0;s:1:"b";i:1;s:1:"a";}
  > apcu_exists s:1:"a";
  > END
  worker 0
  a:0:{}
  a:1:{i:0;s:1:"b";}
  b:0;
  journal
  0
  0
  0
  0
  0
  0

  $ apcu_run --shm-size=4096 --slots=32 << 'END'
  > worker
  > apcu_store a:2:{s:1:"a";a:1:{i:0;R:2;}i:7;i:5;} N;
  > apcu_add a:2:{s:1:"a";N;s:1:"b";N;} N;
  > END
  worker 0
  a:0:{}
  a:1:{s:1:"a";i:-1;}
  journal
  0
  0
  0
  0
  0

  $ apcu_run --shm-size=4096 --slots=32 << 'END'
  > worker
  > apcu_store a:2:{s:1:"a";a:1:{i:0;R:2;}i:7;i:5;} N;
  > apcu_clear_cache
  > apcu_exists s:1:"a";
  > END
  worker 0
  a:0:{}
  b:1;
  b:0;
  journal
  0
  0
  0
  0
  0

A row with seconds to live expires after them. `apcu_add` then stores.

  $ apcu_run --shm-size=4096 --slots=32 << 'END'
  > worker
  > time i:100;
  > apcu_add s:1:"a"; i:1; i:2;
  > apcu_add s:1:"a"; i:2;
  > time i:102;
  > apcu_fetch s:1:"a";
  > time i:103;
  > apcu_exists s:1:"a";
  > apcu_add s:1:"a"; i:3;
  > apcu_delete s:1:"a";
  > END
  worker 0
  b:1;
  b:0;
  i:1;b:1;
  b:0;
  b:1;
  b:1;
  journal
  0
  0
  0
  0
  0
  0
  0

Statistics of a key, of the cache and of its memory.

  $ apcu_run --shm-size=4096 --slots=32 << 'END'
  > worker
  > time i:100;
  > apcu_store s:1:"a"; i:1; i:10;
  > time i:105;
  > apcu_fetch s:1:"a";
  > apcu_key_info s:1:"a";
  > apcu_key_info s:1:"x";
  > apcu_cache_info b:0;
  > apcu_sma_info b:1;
  > time i:111;
  > apcu_key_info s:1:"a";
  > END
  worker 0
  b:1;
  i:1;b:1;
  a:6:{s:4:"hits";i:1;s:11:"access_time";i:105;s:5:"mtime";i:100;s:13:"creation_time";i:100;s:13:"deletion_time";i:0;s:3:"ttl";i:10;}
  N;
  a:10:{s:9:"num_slots";i:32;s:3:"ttl";i:0;s:8:"num_hits";i:1;s:10:"num_misses";i:0;s:11:"num_inserts";i:1;s:11:"num_entries";i:1;s:8:"expunges";i:0;s:8:"mem_size";i:128;s:10:"cache_list";a:1:{i:0;a:8:{s:4:"info";s:1:"a";s:3:"ttl";i:10;s:8:"num_hits";i:1;s:5:"mtime";i:100;s:13:"creation_time";i:100;s:13:"deletion_time";i:0;s:11:"access_time";i:105;s:8:"mem_size";i:128;}}s:12:"deleted_list";a:0:{}}
  a:3:{s:7:"num_seg";i:1;s:8:"seg_size";i:4096;s:9:"avail_mem";i:3712;}
  N;
  journal
  0
  0
  0
  0
  0
  0
  0
  0
