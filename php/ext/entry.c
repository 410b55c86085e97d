/* SPDX-License-Identifier: MIT */
/* The locks around callbacks of apcu_entry.
 *
 * Keys are spread over groups, and each group has a lock, so a slow callback keeps only callers of keys
 * of its group waiting. While a process waits for a lock it holds nothing, except the locks of the
 * callbacks that it is in; so a wait can end at any time.
 *
 * Nested callbacks take several locks, in any order. Before a process that owns one waits for
 * another, it notes that with each lock it owns. If the owner of the lock that it wants waits, directly or
 * through others, for one of its own, none of them would ever continue: then its callback runs without the
 * lock. Each of them notes first and checks then, so at least the last one sees the cycle. */
#include "php_apcu.h"

/* A wait is divided into slices, between which PHP's interrupts are run. */
#define SLICE_NANOSECONDS 100000000

#if PHP_VERSION_ID >= 80200
# define IS_SET(flag) zend_atomic_bool_load_ex(&(flag))
# define UNSET(flag) zend_atomic_bool_store_ex(&(flag), false)
#else
# define IS_SET(flag) (flag)
# define UNSET(flag) ((flag) = false)
#endif

static uint32_t group_of(zend_string *key)
{
	/* The lowest bits of PHP's hash are alike for keys with the same letters. */
	return (uint32_t) ((uint64_t) zend_string_hash_val(key) * UINT64_C(0x9E3779B97F4A7C15) >> 58) % APCU_ENTRY_GROUPS;
}

/* A forked child owns none of the locks that its parent had. */
static void forget_parent(void)
{
	pid_t process = getpid();

	if (APCU_G(entry_process) != process) {
		APCU_G(entry_process) = process;
		APCU_G(entry_owned) = 0;
		memset(APCU_G(entry_depth), 0, sizeof APCU_G(entry_depth));
	}
}

/* Notes the group that this process waits for, or -1 for none. */
static void note_wait(int group)
{
	if (EXPECTED(APCU_G(entry_owned) == 0)) {
		return;
	}
	for (uint32_t i = 0; i < APCU_ENTRY_GROUPS; i++) {
		if (APCU_G(entry_depth)[i] > 0) {
			atomic_store(&apcu_shm()->entry[i].waits_for, (uint32_t) (group + 1));
		}
	}
}

/* Whether the owner of the group's lock waits for this process. */
static bool is_circle(uint32_t group)
{
	for (uint32_t n = 0; n < APCU_ENTRY_GROUPS && APCU_G(entry_owned) > 0; n++) {
		uint32_t next = atomic_load(&apcu_shm()->entry[group].waits_for);

		if (next == 0 || next > APCU_ENTRY_GROUPS) {
			return false;
		}
		group = next - 1;
		if (APCU_G(entry_depth)[group] > 0) {
			return true;
		}
	}
	return false;
}

/* What PHP does between two instructions of a script: it ends one that has run for too long, and calls
 * the handlers of signals. The wait counts as running, whatever PHP's own timer counts. False if an
 * exception was thrown. */
static bool run_interrupts(uint64_t waited)
{
	if (EG(timeout_seconds) > 0 && waited / 1000000000 >= (uint64_t) EG(timeout_seconds)) {
		zend_timeout();
	}
	if (IS_SET(EG(vm_interrupt))) {
		UNSET(EG(vm_interrupt));
		if (IS_SET(EG(timed_out))) {
			zend_timeout();
		}
		if (zend_interrupt_function) {
			zend_interrupt_function(EG(current_execute_data));
		}
	}
	return !EG(exception);
}

/* True, and whether the lock was taken; or false, if an exception was thrown meanwhile. */
static bool wait_for(uint32_t group, bool *is_taken)
{
	robust_lock *lock = &apcu_shm()->entry[group].lock;
	uint64_t since = 0;
	int error = robust_lock_try(lock, 0);

	while (error == ETIMEDOUT) {
		since = since ? since : robust_nanoseconds();
		note_wait((int) group);
		if (UNEXPECTED(is_circle(group))) {
			note_wait(-1);
			return true;
		}
		error = robust_lock_try(lock, SLICE_NANOSECONDS);
		note_wait(-1);
		if (error == ETIMEDOUT) {
			if (!run_interrupts(robust_nanoseconds() - since)) {
				return false;
			}
			forget_parent();
		}
	}
	/* The lock guards no memory, so nothing has to be repaired if its last owner died. */
	*is_taken = error == 0 || error == EOWNERDEAD;
	if (*is_taken) {
		if (since) {
			apcu_shm_note_entry_wait(robust_nanoseconds() - since);
		}
		atomic_store(&apcu_shm()->entry[group].waits_for, 0);
	}
	return true;
}

bool apcu_entry_begin(zend_string *key, apcu_entry_lock *lock)
{
	uint32_t group = group_of(key);
	bool is_taken = false;

	forget_parent();
	if (APCU_G(entry_depth)[group] > 0) {
		APCU_G(entry_depth)[group]++;
		is_taken = true;
	} else if (!wait_for(group, &is_taken)) {
		return false;
	} else if (is_taken) {
		APCU_G(entry_depth)[group] = 1;
		APCU_G(entry_owned)++;
	}
	*lock = (apcu_entry_lock) {is_taken ? getpid() : 0, group};
	return true;
}

static void release(uint32_t group)
{
	APCU_G(entry_depth)[group] = 0;
	APCU_G(entry_owned)--;
	robust_lock_give(&apcu_shm()->entry[group].lock);
}

void apcu_entry_end(const apcu_entry_lock *lock)
{
	/* Neither the lock of a parent, nor one that was released at the end of the request. */
	if (lock->process == getpid() && APCU_G(entry_process) == lock->process && APCU_G(entry_depth)[lock->group] > 0
			&& --APCU_G(entry_depth)[lock->group] == 0) {
		release(lock->group);
	}
}

void apcu_entry_leave(void)
{
	if (EXPECTED(APCU_G(entry_owned) == 0)) {
		return;
	}
	forget_parent();
	for (uint32_t i = 0; i < APCU_ENTRY_GROUPS; i++) {
		if (APCU_G(entry_depth)[i] > 0) {
			release(i);
		}
	}
}
