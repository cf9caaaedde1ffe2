// Test of entries, entrywise calls, union and xor product, binomial product and boards as plain loops.
#include "plain.h"

#include <algorithm>

// Collected in 32 bits, which the compiler makes better vectors of than a bool.
bool plain::all_below(u32 n, u32 m, const u32 *table) {
    u32 above = 0;
    for (std::size_t i = 0; i < std::size_t{1} << n; i++) above |= table[i] >= m;
    return above == 0;
}

template <typename Form>
void plain::By<Form>::sum(u32 n, u32 m, const u32 *a, const u32 *b, u32 *result) {
    const Form form{m};
    for (std::size_t i = 0; i < std::size_t{1} << n; i++) result[i] = form.add(a[i], b[i]);
}

template <typename Form>
void plain::By<Form>::difference(u32 n, u32 m, const u32 *a, const u32 *b, u32 *result) {
    const Form form{m};
    for (std::size_t i = 0; i < std::size_t{1} << n; i++) result[i] = form.subtract(a[i], b[i]);
}

// Shows `change` the entries without and with each control in turn.
template <typename Change>
static void for_each_control(u32 n, u32 *table, Change change) {
    for (u32 i = 0; i < n; i++) {
        std::size_t step = std::size_t{1} << i;
        for (std::size_t base = 0; base < std::size_t{1} << n; base += 2 * step) {
            for (std::size_t low = base; low < base + step; low++) change(table[low], table[low + step]);
        }
    }
}

template <typename Forward, typename Back>
static void transformed_product(u32 n, u32 m, const u32 *a, const u32 *b, u32 *result, u32 *work, Forward forward, Back back) {
    const std::size_t entries = std::size_t{1} << n;
    std::copy(a, a + entries, result);
    std::copy(b, b + entries, work);
    for_each_control(n, result, forward);
    for_each_control(n, work, forward);
    for (std::size_t i = 0; i < entries; i++) result[i] = mul_mod(result[i], work[i], m);
    for_each_control(n, result, back);
}

template <typename Form>
void plain::By<Form>::union_product(u32 n, u32 m, const u32 *a, const u32 *b, u32 *result, u32 *work) {
    const Form form{m};
    auto zeta = [form](u32 &without, u32 &with) { with = form.add(with, without); };
    auto moebius = [form](u32 &without, u32 &with) { with = form.subtract(with, without); };
    transformed_product(n, m, a, b, result, work, zeta, moebius);
}

template <typename Form>
void plain::By<Form>::xor_product(u32 n, u32 m, const u32 *a, const u32 *b, u32 *result, u32 *work) {
    const Form form{m};
    auto butterfly = [form](u32 &without, u32 &with) {
        u32 x = without, y = with;
        without = form.add(x, y);
        with = form.subtract(x, y);
    };
    transformed_product(n, m, a, b, result, work, butterfly, butterfly);
    u32 scale = 1;
    for (u32 i = 0; i < n; i++) scale = mul_mod(scale, m / 2 + 1, m);
    for (std::size_t i = 0; i < std::size_t{1} << n; i++) result[i] = mul_mod(result[i], scale, m);
}

void plain::binomial_product(u32 n, u32 m, const u32 *f, const u32 *g, u32 *result) {
    u32 choose[17] = {};
    for (u32 i = 0; i <= n; i++) {
        choose[i] = 1;
        for (u32 j = i; j-- > 1;) choose[j] += choose[j - 1];
        u64 sum = 0;
        for (u32 j = 0; j <= i; j++) sum += u64{mul_mod(choose[j] % m, f[j], m)} * g[i - j] % m;
        result[i] = static_cast<u32>(sum % m);
    }
}

void plain::board_fresh(u32 n, u32 *a, u32 *e, u32 *i) {
    for (u32 *table : {a, e, i}) std::fill(table, table + (std::size_t{1} << n), 0);
    e[0] = i[0] = 1;
}

// The sets that contain the set, in rising code.
void plain::board_add(u32 n, u32 m, u32 set, u32 weight, u32 *a, u32 *e, u32 *i) {
    u32 opposite = (m - weight) % m;
    a[set] = static_cast<u32>((u64{a[set]} + weight) % m);
    for (std::size_t all = set; all < std::size_t{1} << n; all = (all + 1) | set) {
        e[all] = static_cast<u32>((e[all] + u64{weight} * e[all - set]) % m);
        i[all] = static_cast<u32>((i[all] + u64{opposite} * i[all - set]) % m);
    }
}

template struct plain::By<plain::Below31>;
template struct plain::By<plain::Below32>;
