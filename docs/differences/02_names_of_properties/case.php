<?php // SPDX-License-Identifier: MIT
apcu_store('a', new ArrayObject([1, 2]));
echo serialize(apcu_fetch('a')), "\n";
