# SPDX-License-Identifier: MIT
{ printf 'worker\napcu_store s:1:"a"; '
  printf 'a:1:{i:0;%.0s' $(seq 512); printf 'N;'
  printf '}%.0s' $(seq 512); echo; } | ./apcu_run
