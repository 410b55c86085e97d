<?php // SPDX-License-Identifier: MIT
// apc.shm_segments=2
echo apcu_sma_info(true)['num_seg'], "\n";
