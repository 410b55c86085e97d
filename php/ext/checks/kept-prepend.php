<?php // SPDX-License-Identifier: MIT

/** A value as it is fetched the third time; the value itself if it can't be stored, or if it holds an object. */
function kept_value(mixed $value): mixed
{
    static $count = 0;
    $key = 'kept ' . $count++;
    try {
        // Objects of the fetch would be others.
        if (!preg_match('/[OCE]:\d+:"/', serialize($value)) && @apcu_store($key, $value)) {
            apcu_fetch($key);
            apcu_fetch($key);
            return apcu_fetch($key);
        }
    } catch (Throwable) {
    }
    return $value;
}
