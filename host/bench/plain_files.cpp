// Table files of both kinds as plain loops, without tests and with those of the contract.
#include "plain.h"

#include <algorithm>

#include "plain_numbers.h"
#include "sps.h"

namespace {

using plain::take_tested_number;

const u32 SPARSE_MARK = 32;  // added to n in the first number of a sparse file

// ---- numbers

u32 take_number(const u8 *&at) {
    u32 value = 0;
    for (u32 shift = 0;; shift += 7) {
        value |= u32{*at & 0x7fu} << shift;
        if (*at++ < 0x80) return value;
    }
}

void put_number(u8 *&at, u32 value) {
    for (; value >= 0x80; value >>= 7) *at++ = static_cast<u8>(value | 0x80);
    *at++ = static_cast<u8>(value);
}

u32 number_length(u32 value) {
    return 1 + (value >= 1u << 7) + (value >= 1u << 14) + (value >= 1u << 21) + (value >= 1u << 28);
}

// As take_number, with the groups written out, which is faster.
inline u32 take_number_unrolled(const u8 *&at) {
    u32 group = *at++, value = group & 0x7f;
    if (group < 0x80) return value;
    group = *at++, value |= (group & 0x7f) << 7;
    if (group < 0x80) return value;
    group = *at++, value |= (group & 0x7f) << 14;
    if (group < 0x80) return value;
    group = *at++, value |= (group & 0x7f) << 21;
    if (group < 0x80) return value;
    return value | u32{*at++} << 28;
}

// ---- reading

// What a file says before its entries.
struct Header {
    plain::Kind kind;
    u32 n, m;
    const u8 *behind;

    u64 answer() const { return u64{n} << 32 | m; }
    std::size_t entries() const { return std::size_t{1} << n; }
};

Header take_header(const u8 *at) {
    u32 first = take_number(at), m = take_number(at);
    plain::Kind kind = first < SPARSE_MARK ? plain::Kind::Full : plain::Kind::Sparse;
    return {kind, first % SPARSE_MARK, m, at};
}

// Fills the table from a file that is in order.
template <u32 Take(const u8 *&)>
void fill(const Header &header, u32 *table) {
    const u8 *at = header.behind;
    if (header.kind == plain::Kind::Full) {
        for (std::size_t code = 0; code < header.entries(); code++) table[code] = Take(at);
    } else {
        std::fill(table, table + header.entries(), 0);
        u32 count = Take(at);
        for (std::size_t code = 0; count > 0; code++, count--) {
            code += Take(at);
            table[code] = Take(at);
        }
    }
}

// The words of a file, in its order.
u64 header_word(const u8 *&at, const u8 *end) {
    u64 first = take_tested_number(at, end);
    if (first >> 32 != 0) return SPS_GROUP;
    if (first >= 2 * SPARSE_MARK || first % SPARSE_MARK > SPS_MOST_CONTROLS) return SPS_PANEL;
    u64 m = take_tested_number(at, end);
    if (m >> 32 != 0) return SPS_GROUP;
    return m < SPS_LOWEST_MODULUS ? SPS_MODULUS : SPS_ACCEPTED;
}

u64 full_word(u32 m, std::size_t entries, const u8 *at, const u8 *end) {
    for (std::size_t code = 0; code < entries; code++) {
        u64 value = take_tested_number(at, end);
        if (value >= m) return value >> 32 != 0 ? SPS_GROUP : SPS_ENTRY;
    }
    return at == end ? SPS_ACCEPTED : SPS_TAIL;
}

u64 sparse_word(u32 m, std::size_t entries, const u8 *at, const u8 *end) {
    u64 count = take_tested_number(at, end);
    if (count >> 32 != 0) return SPS_GROUP;
    for (std::size_t left = entries; count > 0; count--) {
        u64 gap = take_tested_number(at, end);
        if (gap >= left) return gap >> 32 != 0 ? SPS_GROUP : SPS_GAP;
        left -= gap + 1;
        u64 value = take_tested_number(at, end);
        if (value == 0) return SPS_ZERO;
        if (value >= m) return value >> 32 != 0 ? SPS_GROUP : SPS_ENTRY;
    }
    return at == end ? SPS_ACCEPTED : SPS_TAIL;
}

// ---- writing

// Shows each entry that is not 0 to `show`, with the codes skipped before it. Eight zeros are passed over at once.
template <typename Show>
void for_each_nonzero(std::size_t entries, const u32 *table, Show show) {
    std::size_t code = 0, next = 0;  // next: the code behind the previous one
    auto look_at = [&](std::size_t code) {
        if (table[code] == 0) return;
        show(static_cast<u32>(code - next), table[code]);
        next = code + 1;
    };
    for (; code + 8 <= entries; code += 8) {
        u32 any = 0;
        for (std::size_t i = 0; i < 8; i++) any |= table[code + i];
        if (any == 0) continue;
        for (std::size_t i = 0; i < 8; i++) look_at(code + i);
    }
    for (; code < entries; code++) look_at(code);
}

// What is found of a file before it is written: how many entries are not 0, the bytes behind m, and whether all are below m.
struct Measure {
    u32 count = 0, length = 0;
    bool below = true;
};

Measure measure(plain::Kind kind, u32 n, u32 m, const u32 *table) {
    const std::size_t entries = std::size_t{1} << n;
    Measure found;
    if (kind == plain::Kind::Full) {
        for (std::size_t code = 0; code < entries; code++) found.length += number_length(table[code]);
        found.below = plain::all_below(n, m, table);
    } else {
        for_each_nonzero(entries, table, [&](u32 gap, u32 value) {
            found.count++;
            found.length += number_length(gap) + number_length(value);
            found.below &= value < m;
        });
        found.length += number_length(found.count);
    }
    return found;
}

// The count is that of entries that are not 0, which a full file does not say.
u64 write(plain::Kind kind, u32 n, u32 m, u32 count, const u32 *table, u8 *buffer) {
    const std::size_t entries = std::size_t{1} << n;
    u8 *at = buffer;
    put_number(at, kind == plain::Kind::Full ? n : SPARSE_MARK + n);
    put_number(at, m);
    if (kind == plain::Kind::Full) {
        for (std::size_t code = 0; code < entries; code++) put_number(at, table[code]);
    } else {
        put_number(at, count);
        for_each_nonzero(entries, table, [&](u32 gap, u32 value) {
            put_number(at, gap);
            put_number(at, value);
        });
    }
    return static_cast<u64>(at - buffer) << 32;
}

}  // namespace

u64 plain::header_check(const u8 *bytes, std::size_t) { return take_header(bytes).answer(); }

u64 plain::read_table(const u8 *bytes, std::size_t, u32 *table) {
    const Header header = take_header(bytes);
    fill<take_number>(header, table);
    return header.answer();
}

u64 plain::read_table_tested(const u8 *bytes, std::size_t length, u32 *table, std::size_t table_length) {
    const u8 *at = bytes, *end = bytes + length;
    u64 word = header_word(at, end);
    if (word != SPS_ACCEPTED) return word << 40;
    const Header header = take_header(bytes);
    if (table_length != header.entries()) return u64{SPS_LENGTH} << 40;
    word = (header.kind == Kind::Full ? full_word : sparse_word)(header.m, header.entries(), at, end);
    if (word != SPS_ACCEPTED) return word << 40;
    fill<take_number_unrolled>(header, table);
    return header.answer();
}

u64 plain::write_table(Kind kind, u32 n, u32 m, const u32 *table, u8 *buffer) {
    const u32 *end = table + (std::size_t{1} << n);
    auto zeros = kind == Kind::Full ? 0 : std::count(table, end, 0u);
    return write(kind, n, m, static_cast<u32>(end - table - zeros), table, buffer);
}

u64 plain::write_table_tested(Kind kind, u32 n, u32 m, const u32 *table, std::size_t table_length, u8 *buffer,
                              std::size_t buffer_length) {
    if (n > SPS_MOST_CONTROLS) return SPS_PANEL;
    if (m < SPS_LOWEST_MODULUS) return SPS_MODULUS;
    if (table_length != std::size_t{1} << n) return SPS_LENGTH;
    const Measure found = measure(kind, n, m, table);
    if (!found.below) return SPS_ENTRY;
    if (1 + number_length(m) + found.length > buffer_length) return SPS_SHORT;
    return write(kind, n, m, found.count, table, buffer);
}
