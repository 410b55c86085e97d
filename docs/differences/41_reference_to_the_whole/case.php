<?php // SPDX-License-Identifier: MIT
class A { public $x; public $y; }
apcu_store('a', unserialize('O:1:"A":2:{s:1:"x";r:1;s:1:"y";R:1;}'));
echo serialize(apcu_fetch('a')), "\n";
