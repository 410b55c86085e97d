<?php // SPDX-License-Identifier: MIT
// apc.entries_hint=33
echo apcu_cache_info(true)['num_slots'], "\n";
