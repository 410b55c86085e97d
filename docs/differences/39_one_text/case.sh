# SPDX-License-Identifier: MIT
for text in 'i:05;' 'i:+5;' 'a:2:{i:0;i:1;i:0;i:2;}' 'a:1:{s:1:"5";N;}'; do
    printf 'worker\napcu_store s:1:"a"; %s\n' "$text" | ./apcu_run
done
