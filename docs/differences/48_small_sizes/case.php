<?php // SPDX-License-Identifier: MIT
// apc.shm_size=512
echo apcu_sma_info(true)['seg_size'], "\n";
