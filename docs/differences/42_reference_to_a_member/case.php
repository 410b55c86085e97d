<?php // SPDX-License-Identifier: MIT
class A { }
apcu_store('a', unserialize('a:3:{i:0;O:1:"A":0:{}i:1;r:2;i:2;R:3;}'));
echo serialize(apcu_fetch('a')), "\n";
