// Wall pages with the labels of a sheet: a line for each entry that is not 0, 50 to a page. A line is blanks, and what it says put
// over them.
#include "plain_pages.h"

#include <algorithm>

#include "plain_numbers.h"

using namespace plain::pages;

namespace {

void put_label(Labels &labels, u32 i, const u8 *at, u32 length) {
    std::memset(labels.text[i], ' ', LABEL_ROOM);
    for (u32 j = 0; j < length; j++) labels.text[i][j] = at[j];
    labels.text[i][length] = '+';
    labels.length[i] = length + 1;
}

// For each byte whether it is neither a letter nor a digit.
struct Others {
    u8 is[256] = {};

    constexpr Others() {
        for (u32 byte = 0; byte < 256; byte++) is[byte] = byte - '0' >= 10 && (byte | 0x20) - 'a' >= 26;
    }
};
constexpr Others OTHERS;

// The first eight bytes of two texts are the same only if the labels are.
bool any_equal(const Labels &labels) {
    u64 words[LABELS], equal = 0;
    for (u32 i = 0; i < LABELS; i++) std::memcpy(&words[i], labels.text[i], sizeof words[i]);
    for (u32 i = 0; i < LABELS; i++) {
        for (u32 j = i + 1; j < LABELS; j++) equal |= words[i] == words[j];
    }
    return equal != 0;
}

// The digits of a number; returns the place behind them.
u8 *put_number(u8 *at, u32 value) {
    u8 digits[10], *begin = put_before(digits + 10, value);
    return std::copy(begin, digits + 10, at);
}

u8 *put_line(u8 *at, LabelByLabel column, u32 code, u32 value) {
    const u32 size = column.put(at, code);
    std::memset(at + SET_LENGTH, ' ', LINE_LENGTH - SET_LENGTH - 1);
    at[LINE_LENGTH - 1] = '\n';
    put_before(at + SET_LENGTH + 2, size);
    put_before(at + LINE_LENGTH - 1, value);
    return at + LINE_LENGTH;
}

// Zeros are passed over eight at a time.
template <typename Look>
void for_each_nonzero(std::size_t entries, const u32 *table, Look look) {
    std::size_t code = 0;
    for (; code + 8 <= entries; code += 8) {
        u32 any = 0;
        for (std::size_t i = 0; i < 8; i++) any |= table[code + i];
        if (any == 0) continue;
        for (std::size_t i = code; i < code + 8; i++) {
            if (table[i] != 0) look(static_cast<u32>(i), table[i]);
        }
    }
    for (; code < entries; code++) {
        if (table[code] != 0) look(static_cast<u32>(code), table[code]);
    }
}

u64 write(u32 n, u32 lines, const u32 *table, const Labels &labels, u8 *buffer) {
    const u32 pages = count_pages(lines);
    u8 *at = put_heading(buffer, 1, pages);
    u32 page = 1, left = PAGE_LINES;
    for_each_nonzero(std::size_t{1} << n, table, [&](u32 code, u32 value) {
        if (left == 0) {
            at = put_heading(at, ++page, pages);
            left = PAGE_LINES;
        }
        at = put_line(at, LabelByLabel{labels}, code, value);
        left--;
    });
    return static_cast<u64>(at - buffer) << 32;
}

u32 count_lines(u32 n, const u32 *table) {
    const u32 *end = table + (std::size_t{1} << n);
    return static_cast<u32>(end - table - std::count(table, end, 0u));
}

}  // namespace

void plain::pages::load(const u8 *at, Labels &labels) {
    for (u32 i = 0; i < LABELS; i++) {
        const u32 length = *at++;
        put_label(labels, i, at, length);
        at += length;
    }
}

u64 plain::pages::load_tested(const u8 *at, const u8 *end, Labels &labels) {
    for (u32 i = 0; i < LABELS; i++) {
        const u64 length = plain::take_tested_number(at, end);
        if (length - 1 >= LONGEST_LABEL) return length >> 32 != 0 ? SPS_GROUP : SPS_LABEL;
        const u64 there = std::min(length, static_cast<u64>(end - at));
        u8 other = 0;
        for (u64 j = 0; j < there; j++) other |= OTHERS.is[at[j]];
        if (other != 0) return SPS_LABEL;
        if (there < length) return SPS_GROUP;
        put_label(labels, i, at, static_cast<u32>(length));
        at += length;
    }
    if (at != end) return SPS_TAIL;
    return any_equal(labels) ? SPS_EQUAL : SPS_ACCEPTED;
}

u8 *plain::pages::put_before(u8 *end, u32 value) {
    do {
        *--end = static_cast<u8>('0' + value % 10);
        value /= 10;
    } while (value != 0);
    return end;
}

u8 *plain::pages::put_heading(u8 *at, u32 page, u32 pages) {
    std::memset(at, ' ', LINE_LENGTH - 1);
    at[LINE_LENGTH - 1] = '\n';
    std::memcpy(at, "page ", 5);
    u8 *behind = put_number(at + 5, page);
    std::memcpy(behind, " of ", 4);
    put_number(behind + 4, pages);
    return at + LINE_LENGTH;
}

u32 plain::pages::count_pages(u32 lines) { return std::max(u32{1}, (lines + PAGE_LINES - 1) / PAGE_LINES); }

u64 plain::write_pages(u32 n, const u32 *table, const u8 *sheet, u8 *buffer) {
    Labels labels;
    load(sheet, labels);
    return write(n, count_lines(n, table), table, labels, buffer);
}

u64 plain::write_pages_tested(u32 n, u32 m, const u32 *table, std::size_t table_length, const u8 *sheet, std::size_t sheet_length,
                              u8 *buffer, std::size_t buffer_length) {
    if (n > SPS_MOST_CONTROLS) return SPS_PANEL;
    if (m < SPS_LOWEST_MODULUS) return SPS_MODULUS;
    if (table_length != std::size_t{1} << n) return SPS_LENGTH;
    if (!plain::all_below(n, m, table)) return SPS_ENTRY;
    Labels labels;
    const u64 word = load_tested(sheet, sheet + sheet_length, labels);
    if (word != SPS_ACCEPTED) return word;
    const u32 lines = count_lines(n, table);
    if (LINE_LENGTH * (lines + count_pages(lines)) > buffer_length) return SPS_SHORT;
    return write(n, lines, table, labels, buffer);
}
