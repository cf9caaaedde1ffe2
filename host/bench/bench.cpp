// Measures each call of the library (of the two changes of a board, adding) next to a plain implementation, a recipe next to the
// calls that it asks for, and sparse files next to full ones, in interleaved rounds of one run, and prints ratios.
// Times are processor time; every buffer was written before it is measured.
#include <algorithm>
#include <cstdio>
#include <cstdlib>
#include <ctime>
#include <functional>
#include <map>
#include <string>
#include <type_traits>
#include <vector>

#include <unistd.h>

#include "plain.h"
#include "sps.h"

namespace {

using plain::Kind;
using Table = std::vector<u32>;
using Bytes = std::vector<u8>;

const u32 PANELS[] = {8, 12, 14, 16};
const u32 MODULI[] = {998244353, 2147483647, 4294967291, 4294967294, 4294967295};
// The labels of the sheet: two of each length, one of them among the first eight.
const std::string LABELS[] = {"gate", "bar", "seat12", "E", "restrain", "B2", "brake", "airgate",
                              "lap", "dispatch", "A", "chain", "C3", "stop", "console", "launch"};
const int ROUNDS = 9;
const double SAMPLE_SECONDS = 0.03;  // calls are repeated until a sample takes about this long

// What one round of all calls works on, for one panel and one modulus.
struct Data {
    u32 n, m;
    std::size_t entries = std::size_t{1} << n;
    Table a = random(1, entries), b = random(2, entries), first_zero = a, first_one = a;
    Table f = random(3, n + 1), g = random(4, n + 1);
    Table result = Table(entries, 1), row = Table(n + 1, 1), pad = Table(SPS_PAD_LENGTH(n), 1);
    Table plain_result = result, plain_row = row, work = pad;
    Table board_a = a, board_e = b, board_i = first_one, plain_a = a, plain_e = b, plain_i = first_one;
    u32 weight = random(5, 1)[0];
    Table left = result, right = result, recipe_pad = Table(SPS_RECIPE_PAD_LENGTH(n), 1);
    Table few = with_nonzero(std::max<std::size_t>(1, 300 * entries >> 16)), all = with_nonzero(entries);
    Bytes sheet = label_sheet();
    Bytes buffer = Bytes(158 * (entries + (entries + 49) / 50), 1), plain_buffer = buffer;  // for all pages; a file is shorter
    Bytes file = file_of(Kind::Full, a), few_full = file_of(Kind::Full, few);
    Bytes few_sparse = file_of(Kind::Sparse, few), all_sparse = file_of(Kind::Sparse, all);

    Data(u32 n, u32 m) : n(n), m(m) {
        first_zero[0] = 0;
        first_one[0] = 1;
    }

    Table random(u64 seed, std::size_t length) const {
        Table entries(length);
        for (u32 &entry : entries) {
            seed = seed * 6364136223846793005 + 1442695040888963407;
            entry = static_cast<u32>((seed >> 32) % m);
        }
        return entries;
    }

    // A table with so many entries that are not 0, spread over the panel at random.
    Table with_nonzero(std::size_t count) const {
        Table table(entries), dice = random(6, entries);
        for (std::size_t code = 0; code < entries; code++) {
            bool chosen = dice[code] % (entries - code) < count;
            if (chosen) table[code] = std::max(a[code], u32{1});
            count -= chosen;
        }
        return table;
    }

    static Bytes label_sheet() {
        Bytes bytes;
        for (const std::string &label : LABELS) {
            bytes.push_back(static_cast<u8>(label.size()));
            bytes.insert(bytes.end(), label.begin(), label.end());
        }
        return bytes;
    }

    Bytes file_of(Kind kind, const Table &table) const {
        Bytes bytes = buffer;
        bytes.resize(plain::write_table(kind, n, m, table.data(), bytes.data()) >> 32);
        return bytes;
    }
};

// A call of the library and its yardstick, a plain form on the same inputs, calls of the library that give the same, or (`other`)
// another call of the library; `odd_only` where even moduli are refused.
struct Bench {
    std::string call, yardstick;
    std::function<u64(Data &)> library;
    std::function<u64(Data &)> plain;
    bool odd_only = false;
    bool other = false;
};

// So many controls from the middle of a panel.
u32 middle(u32 n, u32 size) { return ((1u << size) - 1) << (n - size) / 2; }

// The plain form of a product together with what the contract asks besides it: entries are tested, the pad is left 0.
template <typename Product>
auto with_duties(Product product) {
    return [product](Data &d) -> u64 {
        if (!plain::all_below(d.n, d.m, d.a.data()) || !plain::all_below(d.n, d.m, d.b.data())) return SPS_ENTRY;
        product(d);
        std::fill(d.work.begin(), d.work.end(), 0);
        return 0;
    };
}

#define TABLE(x) d.x.data(), d.x.size()
#define RESULT TABLE(result)
#define PAD TABLE(pad)
#define LENT(member) (d.*member).data(), (d.*member).size()
#define PLAIN_PRODUCT(product) \
    [](Data &d) { plain::By<Form>::product(d.n, d.m, d.a.data(), d.b.data(), d.plain_result.data(), d.work.data()); }

// The recipe of this line over A, B and C; D is B once more.
u64 recipe(const std::string &line, Data &d, const Table &a, const Table &b, const Table &c) {
    auto bytes = reinterpret_cast<const u8 *>(line.data());
    return sps_recipe(d.n, d.m, bytes, line.size(), a.data(), a.size(), b.data(), b.size(), c.data(), c.size(), b.data(), b.size(),
                      RESULT, TABLE(recipe_pad));
}

// The subset product to its scalar form comes first: other calls are given in it.
template <typename Form>
std::vector<Bench> benches() {
    std::vector<Bench> all;
    // A plain form that returns nothing stands for one that answers 0.
    auto add = [&](std::string call, const char *yardstick, auto library, auto plain, bool odd_only = false) {
        auto answering = [plain](Data &d) {
            if constexpr (std::is_void_v<decltype(plain(d))>) {
                return plain(d), u64{0};
            } else {
                return plain(d);
            }
        };
        all.push_back({call, yardstick, library, answering, odd_only});
    };
    // Next to another call of the library, round by round: the cost in that call.
    auto add_in = [&](const char *other, std::string call, auto library, auto other_call) {
        all.push_back({call, other, library, other_call, false, true});
    };

    auto subset = [](Data &d) { return sps_subset_product(d.n, d.m, TABLE(a), TABLE(b), RESULT, PAD); };
    auto subset_number = [subset](Data &d) { return subset(d) & 0xffffffff; };
    auto plain_subset = PLAIN_PRODUCT(subset_product);
    add("subset product", "scalar", subset_number, plain_subset);
    add("subset product", "scalar + duties", subset, [plain_subset](Data &d) {
        u64 number = with_duties(plain_subset)(d);
        return u64{plain::ceiling(d.n, d.plain_result.data())} << 32 | number;
    });
    add("subset product", "textbook", subset_number, PLAIN_PRODUCT(textbook_subset_product));

    add("exponential", "plain", [](Data &d) { return sps_exponential(d.n, d.m, TABLE(first_zero), RESULT, PAD); },
        [](Data &d) { plain::By<Form>::exponential(d.n, d.m, d.first_zero.data(), d.plain_result.data(), d.work.data()); });
    add("composition", "plain", [](Data &d) { return sps_composition(d.n, d.m, TABLE(first_zero), TABLE(f), RESULT, PAD); },
        [](Data &d) { plain::By<Form>::composition(d.n, d.m, d.first_zero.data(), d.f.data(), d.plain_result.data(), d.work.data()); });
    add("logarithm", "plain", [](Data &d) { return sps_logarithm(d.n, d.m, TABLE(first_one), RESULT, PAD); },
        [](Data &d) { plain::By<Form>::logarithm(d.n, d.m, d.first_one.data(), d.plain_result.data(), d.work.data()); });
    add("inverse", "plain", [](Data &d) { return sps_inverse(d.n, d.m, TABLE(first_one), RESULT, PAD); },
        [](Data &d) { plain::By<Form>::inverse(d.n, d.m, d.first_one.data(), d.plain_result.data(), d.work.data()); });
    auto projection = [](Data &d) { return sps_projection(d.n, d.m, TABLE(a), TABLE(first_zero), TABLE(row), PAD); };
    add("projection", "plain", projection, [](Data &d) {
        plain::By<Form>::projection(d.n, d.m, d.a.data(), d.first_zero.data(), d.plain_row.data(), d.work.data());
    });
    add_in("subset product", "projection", projection, [](Data &d) {
        return sps_subset_product(d.n, d.m, TABLE(a), TABLE(b), d.work.data(), d.entries, PAD) & 0xffffffff;
    });

    add("fresh board", "plain", [](Data &d) { return sps_board_fresh(d.n, d.m, TABLE(board_a), TABLE(board_e), TABLE(board_i)); },
        [](Data &d) { plain::board_fresh(d.n, d.plain_a.data(), d.plain_e.data(), d.plain_i.data()); });
    for (u32 size : {1, 2, 8}) {
        std::string call = "add, |S| = " + std::to_string(size);
        auto board_add = [size](Data &d) {
            return sps_board_add(d.n, d.m, middle(d.n, size), d.weight, TABLE(board_a), TABLE(board_e), TABLE(board_i));
        };
        add(call, "plain + tests", board_add, [size](Data &d) -> u64 {
            for (const Table *table : {&d.plain_a, &d.plain_e, &d.plain_i}) {
                if (!plain::all_below(d.n, d.m, table->data())) return SPS_ENTRY;
            }
            plain::board_add(d.n, d.m, middle(d.n, size), d.weight, d.plain_a.data(), d.plain_e.data(), d.plain_i.data());
            return 0;
        });
        add_in("exponential", call, board_add, [](Data &d) {
            return sps_exponential(d.n, d.m, TABLE(first_zero), d.work.data(), d.entries, PAD);
        });
        add_in("inverse", call, board_add, [](Data &d) {
            return sps_inverse(d.n, d.m, TABLE(first_one), d.work.data(), d.entries, PAD);
        });
    }

    add("recipe A*B+exp(C)", "its calls",
        [](Data &d) { return recipe("A*B+exp(C)", d, d.a, d.b, d.first_zero); }, [](Data &d) {
            u64 product = sps_subset_product(d.n, d.m, TABLE(a), TABLE(b), TABLE(left), PAD) & 0xffffffff;
            u32 exponential = sps_exponential(d.n, d.m, TABLE(first_zero), TABLE(right), PAD);
            return product | exponential | sps_sum(d.n, d.m, TABLE(left), TABLE(right), TABLE(plain_result));
        });
    add("recipe A|B-log(C)", "its calls",
        [](Data &d) { return recipe("A|B-log(C)", d, d.a, d.b, d.first_one); }, [](Data &d) -> u64 {
            u32 product = sps_union_product(d.n, d.m, TABLE(a), TABLE(b), TABLE(left), PAD);
            u32 logarithm = sps_logarithm(d.n, d.m, TABLE(first_one), TABLE(right), PAD);
            return product | logarithm | sps_difference(d.n, d.m, TABLE(left), TABLE(right), TABLE(plain_result));
        });

    auto union_ = [](Data &d) { return sps_union_product(d.n, d.m, TABLE(a), TABLE(b), RESULT, PAD); };
    auto plain_union = PLAIN_PRODUCT(union_product);
    add("union product", "plain", union_, plain_union);
    add("union product", "plain + duties", union_, with_duties(plain_union));
    auto xor_ = [](Data &d) { return sps_xor_product(d.n, d.m, TABLE(a), TABLE(b), RESULT, PAD); };
    auto plain_xor = PLAIN_PRODUCT(xor_product);
    add("xor product", "plain", xor_, plain_xor, true);
    add("xor product", "plain + duties", xor_, with_duties(plain_xor), true);

    add("sum", "plain", [](Data &d) { return sps_sum(d.n, d.m, TABLE(a), TABLE(b), RESULT); },
        [](Data &d) { plain::By<Form>::sum(d.n, d.m, d.a.data(), d.b.data(), d.plain_result.data()); });
    add("difference", "plain", [](Data &d) { return sps_difference(d.n, d.m, TABLE(a), TABLE(b), RESULT); },
        [](Data &d) { plain::By<Form>::difference(d.n, d.m, d.a.data(), d.b.data(), d.plain_result.data()); });
    add("binomial product", "plain", [](Data &d) { return sps_binomial_product(d.n, d.m, TABLE(f), TABLE(g), TABLE(row)); },
        [](Data &d) { plain::binomial_product(d.n, d.m, d.f.data(), d.g.data(), d.plain_row.data()); });
    add("header check", "plain", [](Data &d) { return sps_header_check(TABLE(file)); },
        [](Data &d) { return plain::header_check(TABLE(file)); });
    // Next to a plain form that trusts what it is lent, and to one with all tests made first.
    auto add_reader = [&](std::string call, Bytes Data::*file) {
        auto reader = [file](Data &d) { return sps_read_table(LENT(file), RESULT); };
        add(call, "plain", reader, [file](Data &d) { return plain::read_table(LENT(file), d.plain_result.data()); });
        add(call, "plain + tests", reader, [file](Data &d) { return plain::read_table_tested(LENT(file), TABLE(plain_result)); });
        return reader;
    };
    add_reader("reader", &Data::file);
    auto few_reader = add_reader("sparse reader few", &Data::few_sparse);
    add_in("full reader", "sparse reader few", few_reader,
        [](Data &d) { return sps_read_table(TABLE(few_full), TABLE(plain_result)); });
    add_reader("sparse reader all", &Data::all_sparse);

    auto add_writer = [&](std::string call, Kind kind, Table Data::*table) {
        auto write = kind == Kind::Full ? sps_write_table : sps_write_sparse;
        auto writer = [write, table](Data &d) { return write(d.n, d.m, LENT(table), TABLE(buffer)); };
        add(call, "plain", writer, [kind, table](Data &d) {
            return plain::write_table(kind, d.n, d.m, (d.*table).data(), d.plain_buffer.data());
        });
        add(call, "plain + tests", writer, [kind, table](Data &d) {
            return plain::write_table_tested(kind, d.n, d.m, LENT(table), TABLE(plain_buffer));
        });
        return writer;
    };
    add_writer("writer", Kind::Full, &Data::a);
    auto few_writer = add_writer("sparse writer few", Kind::Sparse, &Data::few);
    add_in("full writer", "sparse writer few", [few_writer](Data &d) { return few_writer(d) & 0xffffffff; },
        [](Data &d) { return sps_write_table(d.n, d.m, TABLE(few), TABLE(plain_buffer)) & 0xffffffff; });
    add_writer("sparse writer all", Kind::Sparse, &Data::all);

    auto add_pages = [&](std::string call, Table Data::*table) {
        auto writer = [table](Data &d) { return sps_write_pages(d.n, d.m, LENT(table), TABLE(sheet), TABLE(buffer)); };
        add(call, "plain", writer, [table](Data &d) {
            return plain::write_pages(d.n, (d.*table).data(), d.sheet.data(), d.plain_buffer.data());
        });
        add(call, "plain + tests", writer, [table](Data &d) {
            return plain::write_pages_tested(d.n, d.m, LENT(table), TABLE(sheet), TABLE(plain_buffer));
        });
        add(call, "tuned + tests", writer, [table](Data &d) {
            return plain::write_pages_tuned(d.n, d.m, LENT(table), TABLE(sheet), TABLE(plain_buffer));
        });
    };
    add_pages("pages few", &Data::few);
    add_pages("pages all", &Data::all);
    return all;
}

// Both give the same, from the same full board and into the same buffer; two calls of the library are both accepted. This also
// writes every buffer once before it is measured.
void compare(const Bench &bench, Data &d) {
    d.board_a = d.plain_a = d.a;
    d.board_e = d.plain_e = d.b;
    d.board_i = d.plain_i = d.first_one;
    d.plain_buffer = d.buffer;
    u64 library = bench.library(d), plain = bench.plain(d);
    bool same = d.result == d.plain_result && d.row == d.plain_row && d.buffer == d.plain_buffer && d.board_a == d.plain_a
        && d.board_e == d.plain_e && d.board_i == d.plain_i;
    if (library != plain || !(same || bench.other)) {
        std::fprintf(stderr, "%s with n = %u, m = %u: the two differ\n", bench.call.c_str(), d.n, d.m);
        std::exit(EXIT_FAILURE);
    }
}

double processor_time() {
    timespec now;
    clock_gettime(CLOCK_PROCESS_CPUTIME_ID, &now);
    return static_cast<double>(now.tv_sec) + 1e-9 * static_cast<double>(now.tv_nsec);
}

double seconds(const std::function<u64(Data &)> &call, Data &d, int repeats) {
    double start = processor_time();
    for (int i = 0; i < repeats; i++) call(d);
    return (processor_time() - start) / repeats;
}

double median(std::vector<double> &times) {
    std::nth_element(times.begin(), times.begin() + times.size() / 2, times.end());
    return times[times.size() / 2];
}

struct Times {
    double library, ratio;
};

// The medians of interleaved rounds; the ratio is that of one round, since the machine's speed may change between rounds.
Times measure(const Bench &bench, Data &d) {
    compare(bench, d);
    auto repeats = [&](const std::function<u64(Data &)> &call) {
        return 1 + static_cast<int>(SAMPLE_SECONDS / std::max(seconds(call, d, 1), 1e-8));
    };
    int library_repeats = repeats(bench.library), plain_repeats = repeats(bench.plain);
    std::vector<double> library, ratios;
    for (int round = 0; round < ROUNDS; round++) {
        library.push_back(seconds(bench.library, d, library_repeats));
        ratios.push_back(library.back() / seconds(bench.plain, d, plain_repeats));
    }
    return {median(library), median(ratios)};
}

// How far the measuring is, on the terminal only.
void tell(std::size_t done, std::size_t total) {
    if (isatty(STDERR_FILENO)) std::fprintf(stderr, "\rmeasuring %zu of %zu%s", done, total, done == total ? "\n" : "");
}

}  // namespace

int main() {
    // Which plain form is right under a modulus is settled here, before anything is measured.
    const std::vector<Bench> below_31 = benches<plain::Below31>(), below_32 = benches<plain::Below32>();
    std::size_t done = 0, total = below_31.size() * std::size(MODULI) * std::size(PANELS);
    std::vector<std::map<u32, std::map<u32, Times>>> measured(below_31.size());  // by modulus, then panel
    for (u32 m : MODULI) {
        const std::vector<Bench> &all = m < u32{1} << 31 ? below_31 : below_32;
        for (u32 n : PANELS) {
            Data d(n, m);
            for (std::size_t i = 0; i < below_31.size(); i++) {
                if (m % 2 == 1 || !all[i].odd_only) measured[i][m][n] = measure(all[i], d);
                tell(++done, total);
            }
        }
    }

    std::printf("Medians of %d interleaved rounds. Plain forms without duties or tests refuse nothing and clear no pad; from exponential to\n"
                "projection they work by the scalar subset product. Duties: what the contract asks of a call besides its\n"
                "product, that is testing every entry, the ceiling (subset product) and clearing the pad. The yardsticks\n"
                "\"subset product\", \"exponential\", \"inverse\", \"full reader\" and \"full writer\" are the library's own calls, and\n"
                "so are the calls of a recipe, made one by one. Weight is added to a board at controls from the middle of the panel;\n"
                "tests are those of every entry, in a reader those of everything in the file, in a writer of files or pages also\n"
                "that of the buffer's length, for pages also those of everything in the label sheet, all made before the\n"
                "table or the buffer is touched. A plain reader goes over the file once. In \"few\" 300 of 65,536 entries are not\n"
                "0, on smaller panels the same share and at least one; in \"all\" every entry.\n\n", ROUNDS);
    std::printf("%-44s library / yardstick at n =     library's growth   n = 16 in subset\n", "");
    std::printf("%-17s %-16s %-10s %6u %6u %6u %6u     12 to 14  14 to 16   products        ms\n",
                "call", "yardstick", "modulus", 8, 12, 14, 16);
    for (std::size_t i = 0; i < below_31.size(); i++) {
        for (auto &[m, times] : measured[i]) {
            std::printf("%-17s %-16s %-10u", below_31[i].call.c_str(), below_31[i].yardstick.c_str(), m);
            for (u32 n : PANELS) std::printf(times[n].ratio < 0.1 ? " %6.4f" : " %6.2f", times[n].ratio);
            std::printf("     %8.2f  %8.2f", times[14].library / times[12].library, times[16].library / times[14].library);
            std::printf("   %8.3f", times[16].library / measured[0][m][16].library);
            std::printf("  %8.3f\n", times[16].library * 1000);
        }
    }
    return EXIT_SUCCESS;
}
