/* For tools/from_c.py --matrix: the operations of <atomic> with weaker memory orders than the source says. With LW_WEAKER=1 release and acquire
   are in place of seq_cst, with LW_WEAKER=2 relaxed is in place of every order. Operators on atomic objects are weaker too. std::atomic_ref, and
   atomic objects that headers of others have, stay as they are. */
#ifndef LW_WEAKER_CC_H
#define LW_WEAKER_CC_H
#include <atomic>
#include <cstddef>
#include <cstdint>

namespace std {
constexpr memory_order lw_order(memory_order order, memory_order weaker)
{
    return LW_WEAKER == 2 ? memory_order_relaxed : order == memory_order_seq_cst ? weaker : order;
}
constexpr memory_order lw_release(memory_order order) { return lw_order(order, memory_order_release); }
constexpr memory_order lw_acquire(memory_order order) { return lw_order(order, memory_order_acquire); }
constexpr memory_order lw_both(memory_order order) { return lw_order(order, memory_order_acq_rel); }

/* The order of a failure that belongs to an order. */
constexpr memory_order lw_failure(memory_order order)
{
    return lw_acquire(order == memory_order_acq_rel ? memory_order_acquire : order == memory_order_release ? memory_order_relaxed : order);
}

template <class T> struct lw_atomic : atomic<T> {
    using base = atomic<T>;
    lw_atomic() noexcept = default;
    constexpr lw_atomic(T value) noexcept : base(value) {}
    lw_atomic(const lw_atomic &) = delete;
    lw_atomic &operator=(const lw_atomic &) = delete;

    void store(T value, memory_order order = memory_order_seq_cst) noexcept { base::store(value, lw_release(order)); }
    T load(memory_order order = memory_order_seq_cst) const noexcept { return base::load(lw_acquire(order)); }
    T exchange(T value, memory_order order = memory_order_seq_cst) noexcept { return base::exchange(value, lw_both(order)); }
#define LW_COMPARE(name) \
    bool name(T &expected, T value, memory_order order = memory_order_seq_cst) noexcept \
    { \
        return base::name(expected, value, lw_both(order), lw_failure(order)); \
    } \
    bool name(T &expected, T value, memory_order order, memory_order failure) noexcept \
    { \
        return base::name(expected, value, lw_both(order), lw_acquire(failure)); \
    }
    LW_COMPARE(compare_exchange_strong)
    LW_COMPARE(compare_exchange_weak)
#define LW_FETCH(name, sign) \
    template <class V> T name(V value, memory_order order = memory_order_seq_cst) noexcept { return base::name(value, lw_both(order)); } \
    template <class V> T operator sign##=(V value) noexcept { return name(value) sign value; }
    LW_FETCH(fetch_add, +)
    LW_FETCH(fetch_sub, -)
    LW_FETCH(fetch_or, |)
    LW_FETCH(fetch_and, &)
    LW_FETCH(fetch_xor, ^)
    T operator++() noexcept { return fetch_add(1) + 1; }
    T operator--() noexcept { return fetch_sub(1) - 1; }
    T operator++(int) noexcept { return fetch_add(1); }
    T operator--(int) noexcept { return fetch_sub(1); }
    T operator=(T value) noexcept
    {
        store(value);
        return value;
    }
    operator T() const noexcept { return load(); }
};

struct lw_atomic_flag : atomic_flag {
    lw_atomic_flag() noexcept = default;
    constexpr lw_atomic_flag(bool value) noexcept : atomic_flag(value) {}
    bool test_and_set(memory_order order = memory_order_seq_cst) noexcept { return atomic_flag::test_and_set(lw_both(order)); }
    void clear(memory_order order = memory_order_seq_cst) noexcept { atomic_flag::clear(lw_release(order)); }
};

/* The functions that take an atomic object by its address. */
template <class T> T atomic_load(const lw_atomic<T> *object) noexcept { return object->load(); }
template <class T> T atomic_load_explicit(const lw_atomic<T> *object, memory_order order) noexcept { return object->load(order); }
#define LW_FUNCTION(type, name, method) \
    template <class T, class V> type name(lw_atomic<T> *object, V value) noexcept { return object->method(value); } \
    template <class T, class V> type name##_explicit(lw_atomic<T> *object, V value, memory_order order) noexcept \
    { \
        return object->method(value, order); \
    }
LW_FUNCTION(void, atomic_store, store)
LW_FUNCTION(T, atomic_exchange, exchange)
LW_FUNCTION(T, atomic_fetch_add, fetch_add)
LW_FUNCTION(T, atomic_fetch_sub, fetch_sub)
LW_FUNCTION(T, atomic_fetch_or, fetch_or)
LW_FUNCTION(T, atomic_fetch_and, fetch_and)
LW_FUNCTION(T, atomic_fetch_xor, fetch_xor)
#define LW_COMPARED(name) \
    template <class T, class V> bool atomic_##name(lw_atomic<T> *object, T *expected, V value) noexcept \
    { \
        return object->name(*expected, value); \
    } \
    template <class T, class V> \
    bool atomic_##name##_explicit(lw_atomic<T> *object, T *expected, V value, memory_order order, memory_order failure) noexcept \
    { \
        return object->name(*expected, value, order, failure); \
    }
LW_COMPARED(compare_exchange_strong)
LW_COMPARED(compare_exchange_weak)
inline bool atomic_flag_test_and_set(lw_atomic_flag *object) noexcept { return object->test_and_set(); }
inline void atomic_flag_clear(lw_atomic_flag *object) noexcept { object->clear(); }
inline bool atomic_flag_test_and_set_explicit(lw_atomic_flag *object, memory_order order) noexcept { return object->test_and_set(order); }
inline void atomic_flag_clear_explicit(lw_atomic_flag *object, memory_order order) noexcept { object->clear(order); }
inline void lw_atomic_thread_fence(memory_order order) noexcept { atomic_thread_fence(lw_both(order)); }

#define LW_TYPE(name, type) typedef lw_atomic<type> lw_atomic_##name;
LW_TYPE(bool, bool)
LW_TYPE(char, char)
LW_TYPE(int, int)
LW_TYPE(uint, unsigned)
LW_TYPE(long, long)
LW_TYPE(ulong, unsigned long)
LW_TYPE(llong, long long)
LW_TYPE(ullong, unsigned long long)
LW_TYPE(int32_t, int32_t)
LW_TYPE(uint32_t, uint32_t)
LW_TYPE(int64_t, int64_t)
LW_TYPE(uint64_t, uint64_t)
LW_TYPE(intptr_t, intptr_t)
LW_TYPE(uintptr_t, uintptr_t)
LW_TYPE(size_t, size_t)
LW_TYPE(ptrdiff_t, ptrdiff_t)
} // namespace std

#define atomic lw_atomic
#define atomic_flag lw_atomic_flag
#define atomic_thread_fence(order) lw_atomic_thread_fence(order)
#define atomic_bool lw_atomic_bool
#define atomic_char lw_atomic_char
#define atomic_int lw_atomic_int
#define atomic_uint lw_atomic_uint
#define atomic_long lw_atomic_long
#define atomic_ulong lw_atomic_ulong
#define atomic_llong lw_atomic_llong
#define atomic_ullong lw_atomic_ullong
#define atomic_int32_t lw_atomic_int32_t
#define atomic_uint32_t lw_atomic_uint32_t
#define atomic_int64_t lw_atomic_int64_t
#define atomic_uint64_t lw_atomic_uint64_t
#define atomic_intptr_t lw_atomic_intptr_t
#define atomic_uintptr_t lw_atomic_uintptr_t
#define atomic_size_t lw_atomic_size_t
#define atomic_ptrdiff_t lw_atomic_ptrdiff_t
#endif
