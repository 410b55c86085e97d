/* SPDX-License-Identifier: MIT */
/* The engine: the assembly text for the processor that is compiled for. */
#if defined(__x86_64__) && !defined(__ILP32__)
# include "cache_c.x86_64.s"
#elif defined(__aarch64__) && defined(__LP64__) && !defined(__AARCH64EB__)
# include "cache_c.aarch64.s"
#else
# error "there is no text of the engine for this processor"
#endif
