// The calls as one would write them in C++ without proofs and, where no tests are named, without refusals: what the library is
// measured against.
#pragma once
#include <cstddef>
#include <cstdint>

using u8 = std::uint8_t;
using u32 = std::uint32_t;
using u64 = std::uint64_t;

inline u32 mul_mod(u32 x, u32 y, u32 m) { return static_cast<u32>(u64{x} * y % m); }

namespace plain {

// Sums, differences and sums of products modulo m, for m below 2^31.
struct Below31 {
    u32 m;
    u64 top = (u64{1} << 63) / m * m;  // the largest multiple of m up to 2^63

    // Without a branch: what went below 0 has its top bit set, and gets m back.
    u32 back_up(u32 x) const { return x + (m & -(x >> 31)); }
    u32 add(u32 x, u32 y) const { return back_up(x + y - m); }
    u32 subtract(u32 x, u32 y) const { return back_up(x - y); }

    // A total has room for two products before it is folded, below 2^63 + m again and without a branch.
    using Total = u64;
    Total fold(u64 sum) const { return sum - (sum >> 63) * top; }
    Total plus(Total total, u64 product) const { return fold(total + product); }
    Total plus(Total total, u64 product, u64 other) const { return fold(total + product + other); }
    u32 residue(Total total) const { return static_cast<u32>(total % m); }
};

// The same for every m of 32 bits, without a branch too.
struct Below32 {
    u32 m;
    u64 two_64 = (~u64{0} % m + 1) % m;  // 2^64 modulo m

    u32 add(u32 x, u32 y) const { return x + y - (m & -u32{x >= m - y}); }
    u32 subtract(u32 x, u32 y) const { return x - y + (m & -u32{x < y}); }

    // In two words, each carry at last counted as two_64.
    using Total = unsigned __int128;
    Total plus(Total total, u64 product) const { return total + product; }
    Total plus(Total total, u64 product, u64 other) const { return total + product + other; }
    u32 residue(Total total) const {
        Total sum = static_cast<u64>(total) + (total >> 64) * two_64;
        return static_cast<u32>((static_cast<u64>(sum) + static_cast<u64>(sum >> 64) * two_64) % m);
    }
};

// Work: 2 (n + 1) 2^n numbers, where it is asked for; no call clears it.

// Duties of a call besides its result: whether all entries of a table are below m, and the ceiling of what a subset product made.
bool all_below(u32 n, u32 m, const u32 *table);
u32 ceiling(u32 n, const u32 *table);

void binomial_product(u32 n, u32 m, const u32 *f, const u32 *g, u32 *result);

// Boards, changed in place: a table of exercises, its exponential and the inverse of that.
void board_fresh(u32 n, u32 *a, u32 *e, u32 *i);
void board_add(u32 n, u32 m, u32 set, u32 weight, u32 *a, u32 *e, u32 *i);

// Table files. Each answers what the library's function does.
enum class Kind { Full, Sparse };

// Of files and tables that are in order and buffers that are long enough; a file is read in a single pass.
u64 header_check(const u8 *bytes, std::size_t length);
u64 read_table(const u8 *bytes, std::size_t length, u32 *table);
u64 write_table(Kind kind, u32 n, u32 m, const u32 *table, u8 *buffer);

// With the tests that the contract asks for, all made before the table or the buffer is touched.
u64 read_table_tested(const u8 *bytes, std::size_t length, u32 *table, std::size_t table_length);
u64 write_table_tested(Kind kind, u32 n, u32 m, const u32 *table, std::size_t table_length, u8 *buffer, std::size_t buffer_length);

// Wall pages with the labels of a sheet: without tests, for a sheet that is in order and a buffer that is long enough; with all
// tests, made before the buffer is touched; and with all tests, in the fastest form that was found.
u64 write_pages(u32 n, const u32 *table, const u8 *sheet, u8 *buffer);
u64 write_pages_tested(u32 n, u32 m, const u32 *table, std::size_t table_length, const u8 *sheet, std::size_t sheet_length,
                       u8 *buffer, std::size_t buffer_length);
u64 write_pages_tuned(u32 n, u32 m, const u32 *table, std::size_t table_length, const u8 *sheet, std::size_t sheet_length,
                      u8 *buffer, std::size_t buffer_length);

// By one of the two forms above.
template <typename Form>
struct By {
    // The ranked recursion of source document 001, with its ranges: tuned, without branches in the inner loops ("scalar").
    static void subset_product(u32 n, u32 m, const u32 *a, const u32 *b, u32 *result, u32 *work);
    // Zeta transform of each rank over the whole table, one remainder for each product ("textbook").
    static void textbook_subset_product(u32 n, u32 m, const u32 *a, const u32 *b, u32 *result, u32 *work);

    // By recursion on halves, over the scalar subset product.
    static void exponential(u32 n, u32 m, const u32 *a, u32 *result, u32 *work);
    static void composition(u32 n, u32 m, const u32 *a, const u32 *f, u32 *result, u32 *work);
    static void logarithm(u32 n, u32 m, const u32 *a, u32 *result, u32 *work);
    static void inverse(u32 n, u32 m, const u32 *a, u32 *result, u32 *work);
    // Work: two tables more.
    static void projection(u32 n, u32 m, const u32 *a, const u32 *b, u32 *row, u32 *work);

    static void sum(u32 n, u32 m, const u32 *a, const u32 *b, u32 *result);
    static void difference(u32 n, u32 m, const u32 *a, const u32 *b, u32 *result);
    static void union_product(u32 n, u32 m, const u32 *a, const u32 *b, u32 *result, u32 *work);
    static void xor_product(u32 n, u32 m, const u32 *a, const u32 *b, u32 *result, u32 *work);
};

}  // namespace plain
