/* For tools/from_c.py --matrix: the operations of <stdatomic.h> with weaker memory orders than the source says. With LW_WEAKER=1 release and
   acquire are in place of seq_cst, with LW_WEAKER=2 relaxed is in place of every order. Operators on atomic objects (x = 1, x++) stay
   seq_cst, since no macro changes them. */
#ifndef LW_WEAKER_H
#define LW_WEAKER_H
#include <stdatomic.h>

#define LW_ORDER(order, weaker) (LW_WEAKER == 2 ? __ATOMIC_RELAXED : (int)(order) == __ATOMIC_SEQ_CST ? (weaker) : (int)(order))
#define LW_RELEASE(order) LW_ORDER(order, __ATOMIC_RELEASE)
#define LW_ACQUIRE(order) LW_ORDER(order, __ATOMIC_ACQUIRE)
#define LW_BOTH(order) LW_ORDER(order, __ATOMIC_ACQ_REL)

#ifdef __clang__
#define lw_store(object, value, order) __c11_atomic_store(object, value, order)
#define lw_load(object, order) __c11_atomic_load(object, order)
#define lw_exchange(object, value, order) __c11_atomic_exchange(object, value, order)
#define lw_fetch(operation, object, value, order) __c11_atomic_fetch_##operation(object, value, order)
#define lw_compare(weak, object, expected, value, order, failure) \
    __c11_atomic_compare_exchange_##weak(object, expected, value, order, failure)
#else
#define lw_store(object, value, order) \
    ({ __auto_type lw_object = (object); __typeof__((void)0, *lw_object) lw_value = (value); __atomic_store(lw_object, &lw_value, order); })
#define lw_load(object, order) \
    ({ __auto_type lw_object = (object); __typeof__((void)0, *lw_object) lw_value; __atomic_load(lw_object, &lw_value, order); lw_value; })
#define lw_exchange(object, value, order) \
    ({ __auto_type lw_object = (object); __typeof__((void)0, *lw_object) lw_value = (value), lw_old; \
       __atomic_exchange(lw_object, &lw_value, &lw_old, order); lw_old; })
#define lw_fetch(operation, object, value, order) __atomic_fetch_##operation(object, value, order)
#define lw_compare(weak, object, expected, value, order, failure) \
    ({ __auto_type lw_object = (object); __typeof__((void)0, *lw_object) lw_value = (value); \
       __atomic_compare_exchange(lw_object, expected, &lw_value, lw_is_##weak, order, failure); })
#define lw_is_weak 1
#define lw_is_strong 0
#endif

#undef atomic_store_explicit
#undef atomic_load_explicit
#undef atomic_exchange_explicit
#undef atomic_fetch_add_explicit
#undef atomic_fetch_sub_explicit
#undef atomic_fetch_or_explicit
#undef atomic_fetch_xor_explicit
#undef atomic_fetch_and_explicit
#undef atomic_compare_exchange_strong_explicit
#undef atomic_compare_exchange_weak_explicit
#undef atomic_store
#undef atomic_load
#undef atomic_exchange
#undef atomic_fetch_add
#undef atomic_fetch_sub
#undef atomic_fetch_or
#undef atomic_fetch_xor
#undef atomic_fetch_and
#undef atomic_compare_exchange_strong
#undef atomic_compare_exchange_weak
#undef atomic_thread_fence
#undef atomic_flag_test_and_set_explicit
#undef atomic_flag_clear_explicit
#undef atomic_flag_test_and_set
#undef atomic_flag_clear

#define atomic_store_explicit(object, value, order) lw_store(object, value, LW_RELEASE(order))
#define atomic_load_explicit(object, order) lw_load(object, LW_ACQUIRE(order))
#define atomic_exchange_explicit(object, value, order) lw_exchange(object, value, LW_BOTH(order))
#define atomic_fetch_add_explicit(object, value, order) lw_fetch(add, object, value, LW_BOTH(order))
#define atomic_fetch_sub_explicit(object, value, order) lw_fetch(sub, object, value, LW_BOTH(order))
#define atomic_fetch_or_explicit(object, value, order) lw_fetch(or, object, value, LW_BOTH(order))
#define atomic_fetch_xor_explicit(object, value, order) lw_fetch(xor, object, value, LW_BOTH(order))
#define atomic_fetch_and_explicit(object, value, order) lw_fetch(and, object, value, LW_BOTH(order))
#define atomic_compare_exchange_strong_explicit(object, expected, value, order, failure) \
    lw_compare(strong, object, expected, value, LW_BOTH(order), LW_ACQUIRE(failure))
#define atomic_compare_exchange_weak_explicit(object, expected, value, order, failure) \
    lw_compare(weak, object, expected, value, LW_BOTH(order), LW_ACQUIRE(failure))
#define atomic_store(object, value) atomic_store_explicit(object, value, __ATOMIC_SEQ_CST)
#define atomic_load(object) atomic_load_explicit(object, __ATOMIC_SEQ_CST)
#define atomic_exchange(object, value) atomic_exchange_explicit(object, value, __ATOMIC_SEQ_CST)
#define atomic_fetch_add(object, value) atomic_fetch_add_explicit(object, value, __ATOMIC_SEQ_CST)
#define atomic_fetch_sub(object, value) atomic_fetch_sub_explicit(object, value, __ATOMIC_SEQ_CST)
#define atomic_fetch_or(object, value) atomic_fetch_or_explicit(object, value, __ATOMIC_SEQ_CST)
#define atomic_fetch_xor(object, value) atomic_fetch_xor_explicit(object, value, __ATOMIC_SEQ_CST)
#define atomic_fetch_and(object, value) atomic_fetch_and_explicit(object, value, __ATOMIC_SEQ_CST)
#define atomic_compare_exchange_strong(object, expected, value) \
    atomic_compare_exchange_strong_explicit(object, expected, value, __ATOMIC_SEQ_CST, __ATOMIC_SEQ_CST)
#define atomic_compare_exchange_weak(object, expected, value) \
    atomic_compare_exchange_weak_explicit(object, expected, value, __ATOMIC_SEQ_CST, __ATOMIC_SEQ_CST)
#define atomic_thread_fence(order) __atomic_thread_fence(LW_BOTH(order))
#define atomic_flag_test_and_set_explicit(object, order) __atomic_test_and_set(object, LW_BOTH(order))
#define atomic_flag_clear_explicit(object, order) __atomic_clear(object, LW_RELEASE(order))
#define atomic_flag_test_and_set(object) atomic_flag_test_and_set_explicit(object, __ATOMIC_SEQ_CST)
#define atomic_flag_clear(object) atomic_flag_clear_explicit(object, __ATOMIC_SEQ_CST)
#endif
