<?php // SPDX-License-Identifier: MIT

// What the checks of kept values share: values that this process keeps.

const SIGNAL_OF_A_WRITE = 11;

/** Fetches what was stored often enough that it is kept. */
function kept(string $key, mixed $value): mixed
{
    apcu_store($key, $value);
    $hits = apcu_cache_info(true)['kept_hits'];
    for ($i = 0; $i < 3; $i++) {
        $fetched = apcu_fetch($key);
    }
    if (apcu_cache_info(true)['kept_hits'] === $hits || $fetched !== $value) {
        fwrite(STDERR, "$key is not kept: apc.kept_size has to be set\n");
        exit(2);
    }
    return $fetched;
}

/** The signal that ended a child that did this; 0 if it ended by itself. */
function signal_of(callable $what): int
{
    $id = pcntl_fork();
    if ($id === 0) {
        $what();
        exit(0);
    }
    pcntl_waitpid($id, $status);
    return pcntl_wifsignaled($status) ? pcntl_wtermsig($status) : 0;
}

/** A write to a kept string has to end a process, or the checks would see none. */
function die_unless_read_only(): void
{
    $text = kept('control', str_repeat('x', 70000));
    $signal = signal_of(function () use ($text) {
        $memset = FFI::cdef('void *memset(void *at, int byte, size_t count); void *memcpy(const char *to, const char *from, size_t count);');
        $memset->memcpy($text, 'y', 1);
    });
    if ($signal !== SIGNAL_OF_A_WRITE) {
        fwrite(STDERR, "a kept value can be written: build the extension by CPPFLAGS=-DAPCU_KEPT_READ_ONLY php/ext/build.sh\n");
        exit(2);
    }
}
