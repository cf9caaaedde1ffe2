// Wall pages in the fastest form that was found, by ways that neither the plain form nor the library goes: columns are copied from
// lines before, values are put down by pairs of digits, and one pass over the table tests and counts, 32 zeros at a time.
#include "plain_pages.h"

using namespace plain::pages;

namespace {

// Lines of neighbouring codes have much in common: the labels of the five low controls are copied from a line before with the
// same of these, those of the others from a line before with the same of those. Codes rise.
struct FromLinesBefore {
    static const u32 LOW = 5, LOWS = 1 << LOW;
    static const std::size_t LOW_LENGTH = SET_LENGTH * LOW / LABELS, HIGH_LENGTH = SET_LENGTH - LOW_LENGTH;

    LabelByLabel by_label;
    u8 low_length[LOWS] = {}, low_size[LOWS] = {};
    const u8 *low[LOWS] = {};  // a line with these of the low controls, and with others, so that a plus follows
    const u8 *high = nullptr;  // the labels of the other controls, in a line
    u32 high_set = 0, high_size = 0;

    explicit FromLinesBefore(const Labels &labels) : by_label{labels} {
        for (u32 control = 0; control < LOW; control++) {
            for (u32 set = 0, bit = 1 << control; set < bit; set++) {
                low_length[set + bit] = static_cast<u8>(low_length[set] + labels.length[control]);
                low_size[set + bit] = static_cast<u8>(low_size[set] + 1);
            }
        }
    }

    u32 put(u8 *at, u32 code) {
        const u32 low_set = code % LOWS, others = code / LOWS;
        if (others == high_set && low[low_set] != nullptr) {
            std::memcpy(at, low[low_set], LOW_LENGTH);
            std::memset(at + HIGH_LENGTH, ' ', LOW_LENGTH);
            std::memcpy(at + low_length[low_set], high, HIGH_LENGTH);
            return low_size[low_set] + high_size;
        }
        const u32 size = by_label.put(at, code);
        if (others != 0) {
            low[low_set] = at;
            high = at + low_length[low_set];
            high_set = others;
            high_size = size - low_size[low_set];
        }
        return size;
    }
};

// 00 to 99.
struct Pairs {
    u8 digits[100][2] = {};

    constexpr Pairs() {
        for (u32 i = 0; i < 100; i++) {
            digits[i][0] = static_cast<u8>('0' + i / 10);
            digits[i][1] = static_cast<u8>('0' + i % 10);
        }
    }
};
constexpr Pairs PAIRS;

// A value right-aligned in 10: all ten digits, and blanks over the zeros in front.
void put_value(u8 *at, u32 value) {
    const u32 high = value / 10000, low = value % 10000, middle = high % 10000;
    std::memcpy(at, PAIRS.digits[high / 10000], 2);
    std::memcpy(at + 2, PAIRS.digits[middle / 100], 2);
    std::memcpy(at + 4, PAIRS.digits[middle % 100], 2);
    std::memcpy(at + 6, PAIRS.digits[low / 100], 2);
    std::memcpy(at + 8, PAIRS.digits[low % 100], 2);
    for (u8 *zero = at; zero < at + 9 && *zero == '0'; zero++) *zero = ' ';
}

template <typename Column>
u8 *put_line(u8 *at, Column &column, u32 code, u32 value) {
    static const char SIZES[] = " 0 1 2 3 4 5 6 7 8 910111213141516";
    const u32 size = column.put(at, code);
    std::memcpy(at + SET_LENGTH, SIZES + 2 * size, 2);
    at[SET_LENGTH + 2] = ' ';
    put_value(at + SET_LENGTH + 3, value);
    at[LINE_LENGTH - 1] = '\n';
    return at + LINE_LENGTH;
}

// Shows first code and end of each part of a table to `look`; a part of 32 zeros is passed over.
template <typename Look>
void for_each_part(std::size_t entries, const u32 *table, Look look) {
    const std::size_t PART = 32;
    std::size_t first = 0;
    for (; first + PART <= entries; first += PART) {
        u32 any = 0;
        for (std::size_t i = 0; i < PART; i++) any |= table[first + i];
        if (any != 0) look(first, first + PART);
    }
    if (first < entries) look(first, entries);
}

template <typename Column>
u64 write_by(Column column, std::size_t entries, u32 lines, const u32 *table, u8 *buffer) {
    const u32 pages = count_pages(lines);
    u8 *at = put_heading(buffer, 1, pages);
    u32 page = 1, left = PAGE_LINES;
    for_each_part(entries, table, [&](std::size_t first, std::size_t end) {
        for (std::size_t code = first; code < end; code++) {
            if (table[code] == 0) continue;
            if (left == 0) {
                at = put_heading(at, ++page, pages);
                left = PAGE_LINES;
            }
            at = put_line(at, column, static_cast<u32>(code), table[code]);
            left--;
        }
    });
    return static_cast<u64>(at - buffer) << 32;
}

u64 write(u32 n, u32 lines, const u32 *table, const Labels &labels, u8 *buffer) {
    const std::size_t entries = std::size_t{1} << n;
    // where few entries are not 0, few lines are neighbours
    if (lines < entries / 8) return write_by(LabelByLabel{labels}, entries, lines, table, buffer);
    return write_by(FromLinesBefore(labels), entries, lines, table, buffer);
}

}  // namespace

u64 plain::write_pages_tuned(u32 n, u32 m, const u32 *table, std::size_t table_length, const u8 *sheet, std::size_t sheet_length,
                             u8 *buffer, std::size_t buffer_length) {
    if (n > SPS_MOST_CONTROLS) return SPS_PANEL;
    if (m < SPS_LOWEST_MODULUS) return SPS_MODULUS;
    if (table_length != std::size_t{1} << n) return SPS_LENGTH;
    u32 lines = 0, above = 0;
    for_each_part(table_length, table, [&](std::size_t first, std::size_t end) {
        for (std::size_t code = first; code < end; code++) {
            lines += table[code] != 0;
            above |= table[code] >= m;
        }
    });
    if (above != 0) return SPS_ENTRY;
    Labels labels;
    const u64 word = load_tested(sheet, sheet + sheet_length, labels);
    if (word != SPS_ACCEPTED) return word;
    if (LINE_LENGTH * (lines + count_pages(lines)) > buffer_length) return SPS_SHORT;
    return write(n, lines, table, labels, buffer);
}
