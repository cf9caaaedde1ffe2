// What the plain and the tuned form of wall pages share: the labels of a sheet, the set column label by label, headings.
#pragma once
#include <cstddef>
#include <cstring>

#include "plain.h"
#include "sps.h"

namespace plain::pages {

const u32 PAGE_LINES = 50;
const std::size_t LINE_LENGTH = 158;
// The set column with the blank behind it, which is as much as all labels of eight bytes take, each with a plus.
const std::size_t SET_LENGTH = 144;
const u32 LABELS = SPS_MOST_CONTROLS, LONGEST_LABEL = 8, LABEL_ROOM = 16;

// Each label with a plus and blanks behind it, to be put down by a copy of constant length, and its length with the plus.
struct Labels {
    u8 text[LABELS][LABEL_ROOM];
    u32 length[LABELS];
};

// Of a sheet that is in order; and with all tests, where the answer is the word of the sheet.
void load(const u8 *at, Labels &labels);
u64 load_tested(const u8 *at, const u8 *end, Labels &labels);

// Goes from one control of the set to the next, and answers the size. The copy of the last label may reach behind the column,
// where the line is written afterwards.
struct LabelByLabel {
    const Labels &labels;

    u32 put(u8 *at, u32 code) const {
        std::memset(at, ' ', SET_LENGTH);
        if (code == 0) return *at = '-', 0;
        u32 size = 0;
        for (u32 rest = code; rest != 0; rest &= rest - 1, size++) {
            const int control = __builtin_ctz(rest);
            std::memcpy(at, labels.text[control], LABEL_ROOM);
            at += labels.length[control];
        }
        at[-1] = ' ';
        return size;
    }
};

// The digits of a number, the last one just before the end; returns where they begin.
u8 *put_before(u8 *end, u32 value);

u8 *put_heading(u8 *at, u32 page, u32 pages);

u32 count_pages(u32 lines);

}  // namespace plain::pages
