<?php // SPDX-License-Identifier: MIT

// Requests each view of APCu's unchanged status page from a server that runs it, and judges it: the status, that PHP
// reported nothing, and that each view shows what it is for.
// php page.php ADDRESS FILE; FILE gets the views' texts without numbers and marks, for another extension to be compared.

declare(strict_types=1);

[, $address, $file] = $argv;
[$views, $wrong, $skeleton] = [0, 0, ''];

/** A view's text; what it has to contain, and what it may not. */
function view(string $name, string $query, array $has = [], array $lacks = []): string
{
    global $address, $views, $wrong, $skeleton;
    $views++;
    $context = stream_context_create(['http' => ['ignore_errors' => true, 'timeout' => 10]]);
    $text = (string) @file_get_contents("http://$address/$query", false, $context);
    $faults = [];
    if (!str_contains($http_response_header[0] ?? 'no answer', ' 200 ')) {
        $faults[] = $http_response_header[0] ?? 'no answer';
    }
    if (preg_match('~(Warning|Notice|Deprecated|Fatal error|Parse error|Uncaught)[^<\n]*~', strip_tags($text), $told)) {
        $faults[] = $told[0];
    }
    foreach ($has as $words) {
        if (!str_contains($text, $words)) {
            $faults[] = "lacks $words";
        }
    }
    foreach ($lacks as $words) {
        if (str_contains($text, $words)) {
            $faults[] = "has $words";
        }
    }
    $wrong += $faults === [] ? 0 : 1;
    echo $faults === [] ? 'good' : 'WRONG', "  $name", $faults === [] ? '' : ': ' . implode('; ', $faults), "\n";
    if (!str_contains($query, 'IMG=')) {
        $plain = preg_replace('~<style.*?</style>|<script.*?</script>~s', '', $text);
        $plain = preg_replace(['~<[^>]*>~', '~[-\d.,:%/ ]+(\s?[KMG]?Bytes)?~', '~\s+~'], ["\n", ' ', "\n"], $plain);
        $skeleton .= "== $name\n$plain\n";
    }
    return $text;
}

$rows = ['user:1', 'user:2', 'list of things', 'counter', 'page: a &amp; b'];
view('fill', 'fill.php', ['filled 25']);
// The page divides by the seconds since the cache was cleared.
sleep(2);
view('host', 'apc.php', ['General Cache Information', 'apc.shm_size', 'Memory Usage', 'Detailed Memory Usage and Fragmentation', 'Cached Variables', 'Hit Rate']);
foreach (str_split('HZSAMCDT') as $sort) {
    foreach (['A', 'D'] as $way) {
        view("rows by $sort $way", "apc.php?OB=2&SCOPE=A&SORT1=$sort&SORT2=$way&COUNT=0", $rows);
    }
}
view('rows, the first ten', 'apc.php?OB=2&SORT1=S&SORT2=A&COUNT=10', ['15 more available']);
view('rows that are searched', 'apc.php?OB=2&COUNT=0&SEARCH=user', ['user:1', 'user:20'], ['counter']);
view('rows that are searched by a bad pattern', 'apc.php?OB=2&COUNT=0&SEARCH=*user', ['user:1']);
view('deleted rows', 'apc.php?OB=2&SCOPE=D&COUNT=0', ['Deleted'], ['user:1']);
view('a row', 'apc.php?OB=2&COUNT=0&SH=' . md5('list of things'), ['[tags] =&gt; Array', 'somebody']);
view('another row', 'apc.php?OB=2&COUNT=0&SH=' . md5('counter'), ['<pre>42</pre>']);
view('a row goes', 'apc.php?OB=2&COUNT=0&DU=' . urlencode('user:2') , ['user:1'], ['>user:2<']);
view('versions', 'apc.php?OB=3', ['APCu Version Information']);
for ($i = 1; $i <= 3; $i++) {
    $picture = view("picture $i", "apc.php?IMG=$i");
    if (extension_loaded('gd') && !str_starts_with($picture, "\x89PNG")) {
        $wrong++;
        echo "WRONG  picture $i is none\n";
    }
}
view('all rows go', 'apc.php?OB=2&COUNT=0&CC=1', [], ['user:1', 'counter']);
view('host of nothing', 'apc.php?OB=1', ['General Cache Information', 'Memory Usage']);
view('pictures of nothing', 'apc.php?IMG=3');
file_put_contents($file, $skeleton);
echo "$views views: ", $wrong === 0 ? 'all are good' : "$wrong are not", "\n";
exit(min($wrong, 1));
