# SPDX-License-Identifier: MIT
printf '%s\n' 's:1:"a"; i:7;' 's:1:"b"; i:8' worker 'apcu_fetch s:1:"a";' | ./apcu_run --preload 27
