<?php // SPDX-License-Identifier: MIT

// A pool of PSR-16 over PHP's APCu: the pool p keeps its key k under {p}k. The braces are reserved in a pool's keys.

declare(strict_types=1);

namespace ApcuPools;

final class Pool
{
    public function __construct(private string $name)
    {
        if (preg_match('/^[A-Za-z0-9_.]{1,64}$/D', $name) !== 1) {
            throw new \InvalidArgumentException('this is no name of a pool');
        }
    }

    public function get(string $key, mixed $default = null): mixed
    {
        $value = apcu_fetch($this->row($key), $is_there);
        return $is_there ? $value : $default;
    }

    public function set(string $key, mixed $value, ?int $ttl = null): bool
    {
        return $ttl !== null && $ttl <= 0
            ? $this->delete($key)
            : apcu_store($this->row($key), $value, $ttl ?? 0);
    }

    public function delete(string $key): bool
    {
        apcu_delete($this->row($key));
        return true;
    }

    public function clear(): bool
    {
        return apcu_delete(new \APCUIterator('/^' . preg_quote('{' . $this->name . '}', '/') . '/', APC_ITER_KEY));
    }

    public function getMultiple(iterable $keys, mixed $default = null): array
    {
        $values = [];
        foreach ($keys as $key) {
            $values[$key] = $this->get((string) $key, $default);
        }
        return $values;
    }

    public function setMultiple(iterable $values, ?int $ttl = null): bool
    {
        $all = true;
        foreach ($values as $key => $value) {
            $all = $this->set((string) $key, $value, $ttl) && $all;
        }
        return $all;
    }

    public function deleteMultiple(iterable $keys): bool
    {
        foreach ($keys as $key) {
            $this->delete((string) $key);
        }
        return true;
    }

    public function has(string $key): bool
    {
        return apcu_exists($this->row($key));
    }

    private function row(string $key): string
    {
        if ($key === '' || strpbrk($key, '{}()/\@:') !== false) {
            throw new \InvalidArgumentException('this is no key of a pool');
        }
        return '{' . $this->name . "}$key";
    }
}
