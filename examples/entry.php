<?php // SPDX-License-Identifier: MIT
function prices(): array
{
    echo "made\n";
    return ['tea' => 3];
}
var_dump(apcu_entry('prices', fn () => prices(), 300)['tea']);
var_dump(apcu_entry('prices', fn () => prices(), 300)['tea']);
