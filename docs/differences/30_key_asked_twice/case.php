<?php // SPDX-License-Identifier: MIT
apcu_store('a', 1);
apcu_store('b', 2);
echo serialize(apcu_exists(['a', 'b', 'a'])), "\n";
echo serialize(apcu_fetch(['a', 'b', 'a'])), "\n";
