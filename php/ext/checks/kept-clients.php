<?php // SPDX-License-Identifier: MIT

// Asks a page of a server in several processes: php kept-clients.php ADDRESS COUNT PROCESSES
// Each answer is "ok FETCHES PROCESS HITS"; HITS of a process of the server rise. Prints the sums; its status is 1 if
// there was another answer.

declare(strict_types=1);

[, $address, $count, $processes] = $argv;
$streams = [];
for ($i = 0; $i < (int) $processes; $i++) {
    [$own, $its] = stream_socket_pair(STREAM_PF_UNIX, STREAM_SOCK_STREAM, STREAM_IPPROTO_IP);
    if (pcntl_fork() === 0) {
        fclose($own);
        for ($j = 0; $j < intdiv((int) $count, (int) $processes); $j++) {
            fwrite($its, str_replace("\n", ' ', (string) @file_get_contents("http://$address/kept-page.php")) . "\n");
        }
        exit(0);
    }
    fclose($its);
    $streams[] = $own;
}
[$good, $bad, $fetches, $hits] = [0, 0, 0, []];
foreach ($streams as $stream) {
    while (($line = fgets($stream)) !== false) {
        if (!preg_match('/^ok (\d+) (\d+) (\d+)$/', trim($line), $found)) {
            $bad++;
            echo 'another answer: ', substr($line, 0, 200), "\n";
            continue;
        }
        $good++;
        $fetches += (int) $found[1];
        $hits[$found[2]] = max($hits[$found[2]] ?? 0, (int) $found[3]);
    }
}
while (pcntl_wait($status) > 0) {
}
printf("%d pages of %d processes, %d fetches that found a row, %d of them a kept value: %d faults\n",
    $good, count($hits), $fetches, array_sum($hits), $bad);
exit($bad === 0 && array_sum($hits) > 0 ? 0 : 1);
