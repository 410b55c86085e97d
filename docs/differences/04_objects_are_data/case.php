<?php // SPDX-License-Identifier: MIT
class A {
    public $x = 1;
    function __wakeup() { $this->x = 2; }
}
apcu_store('a', new A);
echo serialize(apcu_fetch('a')), "\n";
