<?php // SPDX-License-Identifier: MIT

// A stretch is a run of events that begins with an empty cache: with the cache's first one, or with a call that clears it.

declare(strict_types=1);

namespace ApcuRecord;

/** What the program takes. */
const MOST_WORKERS = 64;
const MOST_BYTES = 67_108_864;
const MOST_EVENTS = 4_194_304;
const LATEST_SECOND = 999_999_999_999;

/** Some events as scripts, and what apcu_run would have printed for them. */
final class Stretch
{
    public int $events = 0;
    /** Seconds from the first event to the last. */
    public int $first = 0;
    public int $last = 0;
    /** Why it ends before the events do. */
    public ?string $cut = null;
    private array $scripts = [];
    private array $replies = [];
    private array $moments = [];
    private array $workers = [];
    private string $journal = '';
    /** With what ends of workers and their lines take. */
    private int $bytes = 32 * MOST_WORKERS;

    /** Adds what came in this second since the start. False if there is no room; then it was not added. */
    public function add(Event $event, int $second): bool
    {
        if ($event->moment < 0 || $event->moment > LATEST_SECOND) {
            $this->cut = "no script can express the second of event {$event->number}";
            return false;
        }
        $worker = $this->workers[$event->process] ??= $this->worker_of(count($this->workers));
        $call = $event->call;
        if ($event->moment !== ($this->moments[$worker] ?? 0)) {
            $call = "time i:{$event->moment};\n$call";
        }
        $bytes = strlen($call) + strlen($event->reply) + strlen((string) $worker) + 1;
        if ($this->bytes + $bytes > MOST_BYTES || $this->events + MOST_WORKERS >= MOST_EVENTS) {
            $this->cut = 'apcu_run takes ' . MOST_BYTES . ' bytes and ' . MOST_EVENTS . " events, and event {$event->number} is behind them";
            return false;
        }
        $this->bytes += $bytes;
        $this->moments[$worker] = $event->moment;
        $this->scripts[$worker] ??= "worker\n";
        $this->replies[$worker] ??= "worker $worker\n";
        // Text is appended in place, so that no copy is made of the existing text.
        $this->scripts[$worker] .= $call;
        $this->replies[$worker] .= $event->reply;
        $this->journal .= "$worker\n";
        if ($this->events++ === 0) {
            $this->first = $second;
        }
        $this->last = $second;
        return true;
    }

    /** Whether it has this many bytes, or as large a part of the events that the program takes. */
    public function is_long(int $bytes): bool
    {
        return $this->bytes > $bytes || $this->events > $bytes / MOST_BYTES * MOST_EVENTS;
    }

    /** A process has a worker of its own; if there are too many, some share one, because their order is known. */
    private function worker_of(int $process): int
    {
        return $process % MOST_WORKERS;
    }

    public function scripts(): string
    {
        return implode($this->scripts);
    }

    /** Each worker ends after all events. */
    public function output(): string
    {
        $ends = implode(array_map(static fn (int $worker): string => "$worker\n", array_keys($this->scripts)));
        return implode($this->replies) . "journal\n{$this->journal}$ends";
    }
}

/** How far what is recorded reaches. */
final class Extent
{
    public int $events = 0;
    /** @var array<int, true> */
    private array $processes = [];
    private ?int $first = null;
    private int $last = 0;

    public function take(Event $event): void
    {
        $this->events++;
        $this->processes[$event->process] = true;
        // A deletion has the second 0, and a row that expires at once one that is past.
        if ($event->moment > 0) {
            $this->first ??= $event->moment;
            $this->last = max($this->last, $event->moment);
        }
    }

    public function seconds(): int
    {
        return $this->first === null ? 0 : $this->last - $this->first + 1;
    }

    public function processes(): int
    {
        return count($this->processes);
    }
}

/**
 * The stretches. After one that is full, the next one begins when the cache is empty again; what is between is in none.
 * One that is large enough ends when the cache is emptied, so few are ever full.
 *
 * @param iterable<Event> $events
 * @return \Generator<int, Stretch>
 */
function stretches(iterable $events, Extent $extent, int $bytes): \Generator
{
    $stretch = null;
    foreach ($events as $event) {
        $extent->take($event);
        $begins = $event->number === 0 || $event->clears() && $stretch?->is_long($bytes) === true;
        if ($stretch !== null && !$begins && $stretch->add($event, $extent->seconds())) {
            continue;
        }
        if ($stretch !== null) {
            yield $stretch;
            $stretch = null;
        }
        if ($event->number === 0 || $event->clears()) {
            $stretch = new Stretch();
            $stretch->add($event, $extent->seconds());
        }
    }
    if ($stretch !== null) {
        yield $stretch;
    }
}

function counted(int $count, string $one, ?string $many = null): string
{
    return number_format($count) . ' ' . ($count === 1 ? $one : $many ?? "{$one}s");
}
