<?php // SPDX-License-Identifier: MIT
foreach (['i:05;', 'i:+5;', 'a:2:{i:0;i:1;i:0;i:2;}', 'a:1:{s:1:"5";N;}'] as $text) {
    apcu_store('a', unserialize($text));
    echo serialize(apcu_fetch('a')), "\n";
}
