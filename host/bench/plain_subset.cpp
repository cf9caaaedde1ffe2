// The subset product in two plain forms, and its ceiling.
#include "plain.h"

#include <algorithm>

namespace {

const struct Sizes {
    u8 of[1 << 16];
    Sizes() {
        for (std::size_t set = 0; set < sizeof of; set++) of[set] = static_cast<u8>(set ? of[set / 2] + set % 2 : 0);
    }
} sizes;

// Row u of each factor has w = n + 1 ranks; a's rows hold the result on the way up.
template <typename Form>
struct Ranked {
    u32 n;
    Form form;
    std::size_t w;

    // Rank d + e of the product of two rows.
    u32 coefficient(const u32 *a, const u32 *b, u32 d, u32 e) const {
        typename Form::Total total{};
        u32 i = e, j = d;
        for (; i < d; i += 2, j -= 2) total = form.plus(total, u64{a[i]} * b[j], u64{a[i + 1]} * b[j - 1]);
        if (i == d) total = form.plus(total, u64{a[i]} * b[j]);
        return form.residue(total);
    }

    // From the top rank down, as rank d of a is a factor of every coefficient.
    void one_entry(u32 *a, const u32 *b, u32 d) const {
        for (u32 e = std::min(n - d, d) + 1; e-- > 0;) a[d + e] = coefficient(a, b, d, e);
    }

    void add_lower(u32 *p, std::size_t half, u32 d) const {
        for (std::size_t u = 0; u < half; u++) {
            const u32 *lower = p + u * w + sizes.of[u];
            u32 *upper = p + (half + u) * w + sizes.of[u];
            upper[0] = lower[0];
            for (u32 k = 1; k <= d; k++) upper[k] = form.add(upper[k], lower[k]);
        }
    }

    void subtract_lower(u32 *p, std::size_t half, u32 left, u32 d) const {
        for (std::size_t u = 0; u < half; u++) {
            u32 size = sizes.of[u] + d, count = std::min(n - left - d, size);
            const u32 *lower = p + u * w + size;
            u32 *upper = p + (half + u) * w + size;
            for (u32 k = 1; k <= count; k++) upper[k] = form.subtract(upper[k], lower[k]);
        }
    }

    // q controls are left, and d of the fixed ones are in the set.
    void recurse(u32 *a, u32 *b, u32 q, u32 d) const {
        if (q == 0) return one_entry(a, b, d);
        std::size_t half = std::size_t{1} << (q - 1);
        add_lower(a, half, d);
        add_lower(b, half, d);
        recurse(a, b, q - 1, d);
        recurse(a + half * w, b + half * w, q - 1, d + 1);
        subtract_lower(a, half, q - 1, d);
    }
};

// The ceiling of a table of zeros.
constexpr u32 ceiling_of_zeros = 255;

}  // namespace

u32 plain::ceiling(u32 n, const u32 *table) {
    u8 largest = 0;
    for (std::size_t set = 0; set < std::size_t{1} << n; set++) {
        largest = std::max(largest, table[set] ? sizes.of[set] : u8{0});
    }
    return largest || table[0] ? largest : ceiling_of_zeros;
}

template <typename Form>
void plain::By<Form>::subset_product(u32 n, u32 m, const u32 *a, const u32 *b, u32 *result, u32 *work) {
    const std::size_t entries = std::size_t{1} << n, w = n + 1;
    u32 *rows_a = work, *rows_b = work + entries * w;
    for (std::size_t set = 0; set < entries; set++) {
        rows_a[set * w + sizes.of[set]] = a[set];
        rows_b[set * w + sizes.of[set]] = b[set];
    }
    Ranked<Form>{n, Form{m}, w}.recurse(rows_a, rows_b, n, 0);
    for (std::size_t set = 0; set < entries; set++) result[set] = rows_a[set * w + sizes.of[set]];
}

namespace {

// The sums over all subsets, for each rank by itself.
template <typename Form>
void zeta(u32 n, Form form, u32 *table) {
    for (u32 i = 0; i < n; i++) {
        for (std::size_t set = 0; set < std::size_t{1} << n; set++) {
            if (set >> i & 1) table[set] = form.add(table[set], table[set ^ std::size_t{1} << i]);
        }
    }
}

template <typename Form>
void moebius(u32 n, Form form, u32 *table) {
    for (u32 i = 0; i < n; i++) {
        for (std::size_t set = 0; set < std::size_t{1} << n; set++) {
            if (set >> i & 1) table[set] = form.subtract(table[set], table[set ^ std::size_t{1} << i]);
        }
    }
}

}  // namespace

template <typename Form>
void plain::By<Form>::textbook_subset_product(u32 n, u32 m, const u32 *a, const u32 *b, u32 *result, u32 *work) {
    const std::size_t entries = std::size_t{1} << n;
    const Form form{m};
    u32 *ranks_a = work, *ranks_b = work + entries * (n + 1);
    std::fill(work, work + 2 * entries * (n + 1), 0);
    for (std::size_t set = 0; set < entries; set++) {
        ranks_a[sizes.of[set] * entries + set] = a[set];
        ranks_b[sizes.of[set] * entries + set] = b[set];
    }
    for (u32 k = 0; k <= n; k++) {
        zeta(n, form, ranks_a + k * entries);
        zeta(n, form, ranks_b + k * entries);
    }
    for (std::size_t set = 0; set < entries; set++) {
        for (u32 k = n + 1; k-- > 0;) {
            u64 sum = 0;
            for (u32 j = 0; j <= k; j++) sum += u64{ranks_a[j * entries + set]} * ranks_b[(k - j) * entries + set] % m;
            ranks_a[k * entries + set] = static_cast<u32>(sum % m);
        }
    }
    for (u32 k = 0; k <= n; k++) moebius(n, form, ranks_a + k * entries);
    for (std::size_t set = 0; set < entries; set++) result[set] = ranks_a[sizes.of[set] * entries + set];
}

template struct plain::By<plain::Below31>;
template struct plain::By<plain::Below32>;
