// Exponential, composition, logarithm, inverse and projection, by recursion on halves over the scalar subset product.
#include "plain.h"

#include <algorithm>
#include <utility>
#include <vector>

template <typename Form>
void plain::By<Form>::exponential(u32 n, u32 m, const u32 *a, u32 *result, u32 *work) {
    result[0] = 1;
    for (u32 q = 0; q < n; q++) {
        std::size_t half = std::size_t{1} << q;
        subset_product(q, m, result, a + half, result + half, work);
    }
}

// At level k the compositions of a's first 2^k entries with f and its shifts stand side by side in the result.
template <typename Form>
void plain::By<Form>::composition(u32 n, u32 m, const u32 *a, const u32 *f, u32 *result, u32 *work) {
    std::copy(f, f + n + 1, result);
    for (u32 k = 0; k < n; k++) {
        std::size_t size = std::size_t{1} << k;
        for (u32 slot = n - k; slot-- > 0;) {
            u32 *from = result + slot * size, *to = result + 2 * slot * size;
            subset_product(k, m, from + size, a + size, to + size, work);
            if (slot != 0) std::copy(from, from + size, to);
        }
    }
}

// (0, 1, -1!, 2!, -3!, ..)
template <typename Form>
void plain::By<Form>::logarithm(u32 n, u32 m, const u32 *a, u32 *result, u32 *work) {
    std::vector<u32> f(n + 1, 0);
    for (u32 k = 1; k <= n; k++) f[k] = k == 1 ? 1 : mul_mod(m - (k - 1) % m, f[k - 1], m);
    composition(n, m, a, f.data(), result, work);
}

static u32 reciprocal(u32 u, u32 m) {
    std::int64_t r = m, r_next = u, x = 0, x_next = 1;
    while (r_next != 0) {
        std::int64_t quotient = r / r_next;
        r = std::exchange(r_next, r - quotient * r_next);
        x = std::exchange(x_next, x - quotient * x_next);
    }
    return static_cast<u32>(x < 0 ? x + m : x);
}

// (u, -u^2, 2! u^3, -3! u^4, ..) with u the reciprocal of the first entry
template <typename Form>
void plain::By<Form>::inverse(u32 n, u32 m, const u32 *a, u32 *result, u32 *work) {
    std::vector<u32> f(n + 1, reciprocal(a[0], m));
    for (u32 k = 1; k <= n; k++) f[k] = mul_mod(mul_mod(m - k % m, f[0], m), f[k - 1], m);
    composition(n, m, a, f.data(), result, work);
}

// With k controls left there are n - k + 1 tables side by side. Each is the sum of the upper half of the old table of its number and
// of a product: of the lower half of the old table before and of b's entries for the sets whose highest control is k.
template <typename Form>
void plain::By<Form>::projection(u32 n, u32 m, const u32 *a, const u32 *b, u32 *row, u32 *work) {
    const Form form{m};
    u32 *from = work + (std::size_t{2} * (n + 1) << n), *to = from + (std::size_t{1} << n);
    std::copy(a, a + (std::size_t{1} << n), from);
    for (u32 k = n; k-- > 0;) {
        std::size_t size = std::size_t{1} << k;
        std::copy(from + size, from + 2 * size, to);
        for (u32 i = 0; i < n - k; i++) {
            const u32 *old = from + 2 * i * size;
            u32 *next = to + (i + 1) * size;
            subset_product(k, m, old, b + size, next, work);
            if (i + 1 == n - k) break;
            for (std::size_t set = 0; set < size; set++) next[set] = form.add(next[set], old[3 * size + set]);
        }
        std::swap(from, to);
    }
    std::copy(from, from + n + 1, row);
}

template struct plain::By<plain::Below31>;
template struct plain::By<plain::Below32>;
