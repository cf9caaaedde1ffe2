// Numbers in groups of seven bits that may be out of order.
#pragma once
#include "plain.h"

namespace plain {

// 2^32 or more where no number stands in its shortest form.
const u64 NONE = ~u64{0};

inline u64 take_number_near_end(const u8 *&at, const u8 *end) {
    u64 value = 0;
    for (u32 shift = 0; at != end && shift < 35; shift += 7) {
        u32 group = *at++;
        value |= u64{group & 0x7f} << shift;
        if (group < 0x80) return group == 0 && shift > 0 ? NONE : value;
    }
    return NONE;
}

// With room for five groups none of them asks for the end.
inline u64 take_tested_number(const u8 *&at, const u8 *end) {
    if (at == end) return NONE;
    u32 group = at[0];
    if (group < 0x80) return at += 1, group;
    if (end - at < 5) return take_number_near_end(at, end);
    u64 value = group & 0x7f;
    group = at[1], value |= u64{group & 0x7f} << 7;
    if (group < 0x80) return at += 2, group == 0 ? NONE : value;
    group = at[2], value |= u64{group & 0x7f} << 14;
    if (group < 0x80) return at += 3, group == 0 ? NONE : value;
    group = at[3], value |= u64{group & 0x7f} << 21;
    if (group < 0x80) return at += 4, group == 0 ? NONE : value;
    group = at[4], value |= u64{group & 0x7f} << 28;
    if (group < 0x80) return at += 5, group == 0 ? NONE : value;
    return NONE;
}

}  // namespace plain
