// Every limit of a plan from both sides (docs/plan-file.md). What is due is stated here by hand, case by
// case, so that the model is judged too.
#include "cases.h"
#include "draft.h"
#include "judge.h"
#include <functional>

namespace {

const std::string SOUND = "sound";

std::string refusal(int number, size_t place) { return std::to_string(number) + " " + std::to_string(place); }

std::string pair_refusal(int number, size_t pair) { return refusal(number, 8 + 8 * pair); }

// Tickets that show what an accepted plan tells.
std::string probe(int nodes) {
    std::string text;
    std::string last = std::to_string(nodes - 1);
    for (const char *kind : {"SUM", "FEW", "WORST"}) {
        text += "QUOTE 0 0 " + last + " " + kind + "\nTRIAL 0 " + last + " 0 " + kind + "\n";
        text += "LIGHT 1 0 " + last + " " + kind + "\nLIGHT 2 1 " + last + " " + kind + "\nDARK 2\n";
    }
    return with_slips(text);
}

class Cases {
public:
    std::vector<Case> made;

    // A plan, and what is due of it; nothing where the model alone says that.
    void add(const std::string &name, const std::string &plan, std::optional<std::string> due,
             int nodes = 4) {
        Case tried{"plan: " + name, {}, due};
        tried.given.plan = plan;
        tried.given.input = probe(nodes);
        made.push_back(tried);
    }
};

// The sample network, with something before and behind each section.
Draft spaced_sample() {
    Draft draft = sample();
    draft.gaps = {"aaa", "bbbb", "ccccc", "dddddd"};
    draft.tail = "eeeeeee";
    return draft;
}

// Numbers.

void add_sizes(Cases &cases) {
    const std::string whole = sample().written();
    const size_t ends[] = {44, 52, 68, 73};
    for (size_t size = 0; size <= whole.size(); size++) {
        std::string due = size < 40 ? refusal(1, 0) : SOUND;
        for (size_t pair = 4; pair-- > 0 && size >= 40;) {
            due = size < ends[pair] ? pair_refusal(6, pair) : due;
        }
        cases.add("cut to " + std::to_string(size), whole.substr(0, size), due);
    }
    for (size_t size : {74, 65535, 65536, 65537, 65538, 131072, 131145, 16777216}) {
        std::string longer = whole;
        longer.resize(size, 'x');
        cases.add("with " + std::to_string(size) + " bytes", longer, size <= 65536 ? SOUND : refusal(1, 0));
    }
    for (size_t section = 0; section < 4; section++) {
        Draft draft = sample();
        draft.gaps[section].resize(65536 - 73, 'g');
        cases.add("65536 bytes by gap " + std::to_string(section), draft.written(), SOUND);
        draft.gaps[section] += 'g';
        cases.add("65537 bytes by gap " + std::to_string(section), draft.written(), refusal(1, 0));
    }
}

void add_with(Cases &cases, const std::string &name, size_t at, size_t width, uint64_t number,
              std::optional<std::string> due) {
    std::string bytes = sample().written();
    put(bytes, at, width, number);
    cases.add(name + " " + std::to_string(number), bytes, due);
}

std::string due_of_nodes(int nodes) {
    if (nodes < 1 || nodes > 64) {
        return refusal(3, 2);
    }
    return nodes == 1 ? refusal(8, 44) : nodes < 4 ? refusal(8, 46) : SOUND;
}

void add_header_bytes(Cases &cases) {
    for (int value = 0; value < 256; value++) {
        uint64_t number = uint64_t(value);
        add_with(cases, "version", 0, 1, number, value == 1 ? SOUND : refusal(2, 0));
        add_with(cases, "spacing", 1, 1, number, value >= 1 && value <= 4 ? SOUND : refusal(3, 1));
        add_with(cases, "nodes", 2, 1, number, due_of_nodes(value));
        bool may = value >= 1 && value <= 16;
        add_with(cases, "channels", 3, 1, number,
                 value == 2 ? SOUND
                 : may      ? pair_refusal(5, 0)
                            : refusal(3, 3));
    }
}

void add_counts(Cases &cases) {
    const std::vector<int> counts = {0,   1,   2,    3,    4,    5,    255,  256,  257,   260,
                                     511, 512, 1024, 1025, 4095, 4096, 4097, 8192, 32768, 65535};
    for (int count : counts) {
        std::string spans = count == 4 ? SOUND : count > 256 ? refusal(3, 4) : pair_refusal(5, 1);
        std::string converters = count == 1 ? SOUND : count > 4096 ? refusal(3, 6) : pair_refusal(5, 3);
        add_with(cases, "spans", 4, 2, uint64_t(count), spans);
        add_with(cases, "converters", 6, 2, uint64_t(count), converters);
    }
}

// Whole plans at a limit and one beyond, with sections of the right length.
void add_full(Cases &cases) {
    Random random(7);
    struct Size {
        int nodes, channels, spans, converters;
        std::string due;
    };
    const std::vector<Size> sizes = {
        {64, 16, 256, 4096, SOUND},
        {65, 16, 256, 4096, refusal(3, 2)},
        {64, 17, 100, 100, refusal(3, 3)},
        {64, 16, 257, 4096, refusal(3, 4)},
        {64, 16, 256, 4097, refusal(3, 6)},
        {64, 1, 256, 0, SOUND},
        {1, 1, 0, 0, SOUND},
        {1, 16, 0, 240, SOUND},
        {2, 1, 256, 0, SOUND},
        {2, 16, 1, 480, SOUND},
        {18, 16, 256, 4096, SOUND},
        {64, 8, 256, 3584, SOUND},
        {64, 16, 0, 4096, SOUND},
        {255, 16, 3, 3, refusal(3, 2)},
        {65, 17, 257, 4097, refusal(3, 2)},
        {64, 17, 257, 4097, refusal(3, 3)},
        {64, 16, 257, 4097, refusal(3, 4)},
    };
    for (const Size &size : sizes) {
        Draft draft = full_draft(random, size.nodes, size.channels, size.spans, size.converters);
        std::string name = "full";
        for (int count : {size.nodes, size.channels, size.spans, size.converters}) {
            name += " " + std::to_string(count);
        }
        cases.add(name, draft.written(), size.due, std::min(size.nodes, 64));
    }
}

// Pairs.

void add_pair_lengths(Cases &cases, const Draft &draft, size_t pair) {
    uint64_t right = draft.length(pair);
    for (uint64_t length : {right - 1, right + 1, uint64_t(0), right * 2, right + 65536, right + (1u << 24),
                            uint64_t(4294967295u), right + (1u << 31)}) {
        std::string bytes = draft.written();
        put(bytes, 12 + 8 * pair, 4, length);
        cases.add("length of " + std::to_string(pair) + " is " + std::to_string(length), bytes,
                  length == right ? SOUND : pair_refusal(5, pair));
    }
}

// Offsets that are too early, and such that the section would end beyond the file, or wrap round.
void add_pair_offsets(Cases &cases, const Draft &draft, size_t pair) {
    std::string whole = draft.written();
    uint64_t before = pair == 0 ? 40 : draft.begin(pair - 1) + draft.length(pair - 1);
    uint64_t length = draft.length(pair), size = whole.size();
    auto try_offset = [&](uint64_t offset, std::optional<std::string> due) {
        std::string bytes = whole;
        put(bytes, 8 + 8 * pair, 4, offset);
        cases.add("offset of " + std::to_string(pair) + " is " + std::to_string(offset), bytes, due);
    };
    for (uint64_t early : {uint64_t(0), before - 1, before - 4}) {
        try_offset(early, pair_refusal(4, pair));
    }
    uint64_t all = 4294967296u;
    for (uint64_t late : {size - length + 1, size, size + 1, uint64_t(65536), all - length, all - length + 1,
                          all - length + 40, all - 1, all / 2}) {
        if (late < all) {
            try_offset(late, pair_refusal(6, pair));
        }
    }
    for (uint64_t there : {before, before + 1, draft.begin(pair) - 1, draft.begin(pair),
                           draft.begin(pair) + 1, size - length}) {
        try_offset(there, {});
    }
}

// A section moved to where the one before ends, with what it says.
void add_tight_pairs(Cases &cases) {
    for (size_t section = 0; section < 4; section++) {
        Draft draft = spaced_sample();
        draft.gaps[section] = "";
        cases.add("no gap before " + std::to_string(section), draft.written(), SOUND);
        std::string bytes = draft.written();
        put(bytes, 8 + 8 * section, 4, draft.begin(section) - 1);
        cases.add("one too early " + std::to_string(section), bytes, pair_refusal(4, section));
    }
    Draft draft = spaced_sample();
    draft.tail = "";
    std::string bytes = draft.written();
    cases.add("ends with the file", bytes, SOUND);
    cases.add("ends one beyond the file", bytes.substr(0, bytes.size() - 1), pair_refusal(6, 3));
}

// Sections of no bytes have to begin in their place all the same, and within the file.
void add_empty_sections(Cases &cases) {
    Draft draft;
    draft.nodes = 2;
    draft.channels = 1;
    draft.numbers = {0};
    draft.tail = "tail";
    const std::string whole = draft.written();
    const uint64_t size = whole.size();
    for (size_t pair = 1; pair < 4; pair++) {
        for (uint64_t offset :
             {uint64_t(0), uint64_t(41), uint64_t(42), uint64_t(43), size, size + 1, uint64_t(4294967295u)}) {
            std::string bytes = whole;
            for (size_t later = pair; later < 4; later++) {
                put(bytes, 8 + 8 * later, 4, offset);
            }
            std::string due = offset < 42     ? pair_refusal(4, pair)
                              : offset > size ? pair_refusal(6, pair)
                                              : SOUND;
            cases.add("empty " + std::to_string(pair) + " at " + std::to_string(offset), bytes, due, 2);
        }
        std::string bytes = whole;
        put(bytes, 8 + 8 * pair, 4, size);
        cases.add("empty " + std::to_string(pair) + " alone at the end", bytes,
                  pair == 3 ? SOUND : pair_refusal(4, pair + 1), 2);
    }
}

void add_pairs(Cases &cases) {
    for (const Draft &draft : {sample(), spaced_sample()}) {
        for (size_t pair = 0; pair < 4; pair++) {
            add_pair_lengths(cases, draft, pair);
            add_pair_offsets(cases, draft, pair);
        }
    }
    add_tight_pairs(cases);
    add_empty_sections(cases);
}

// Records.

using Change = std::function<void(Draft &)>;

void add_record(Cases &cases, const Draft &base, const std::string &name, const Change &change,
                const std::string &due) {
    Draft draft = base;
    change(draft);
    cases.add(name, draft.written(), due);
}

// A network of 16 channels and many converters, each of whose records can be spoiled.
Draft rich() {
    Draft draft = spaced_sample();
    draft.channels = 16;
    draft.numbers = {-1000, -999, -500, -100, -10, -2, -1, 0, 1, 2, 10, 100, 500, 900, 999, 1000};
    draft.tariffs.assign(64, 5);
    draft.converters = {{0, 0, 1, 0},  {0, 0, 2, 65534}, {0, 1, 0, 3},  {1, 0, 15, 4},
                        {1, 15, 0, 4}, {2, 7, 8, 9},     {3, 15, 14, 0}};
    return draft;
}

void add_number_records(Cases &cases) {
    const Draft base = rich();
    for (size_t channel = 0; channel < 16; channel++) {
        std::string due = refusal(7, base.begin(0) + 2 * channel);
        int before = channel == 0 ? -1001 : base.numbers[channel - 1];
        for (int number : {before, before - 1, -1001, 1001, -32768, 32767}) {
            std::string name = "number " + std::to_string(channel) + " is " + std::to_string(number);
            add_record(
                cases, base, name, [&](Draft &draft) { draft.numbers[channel] = number; }, due);
        }
        if (channel < 15) {
            int next = base.numbers[channel + 1];
            std::string later = refusal(7, base.begin(0) + 2 * channel + 2);
            std::string name = "number " + std::to_string(channel) + " as the next";
            add_record(
                cases, base, name, [&](Draft &draft) { draft.numbers[channel] = next; }, later);
        }
    }
    Draft one = sample();
    one.channels = 1;
    one.tariffs = {2, 3, 4, 5};
    one.converters = {};
    for (int number : {-1002, -1001, -1000, -999, 0, 999, 1000, 1001, 1002, 32767, -32768}) {
        one.numbers = {number};
        bool may = number >= -1000 && number <= 1000;
        cases.add("only number " + std::to_string(number), one.written(), may ? SOUND : refusal(7, 40));
    }
}

void add_span_records(Cases &cases) {
    const Draft base = spaced_sample();
    for (size_t span = 0; span < 4; span++) {
        std::string due = refusal(8, base.begin(1) + 2 * span);
        auto add = [&](Span ends, const std::string &what) {
            std::string name = "span " + std::to_string(span) + " from " + std::to_string(ends.tail) +
                               " to " + std::to_string(ends.head);
            add_record(
                cases, base, name, [&](Draft &draft) { draft.spans[span] = ends; }, what);
        };
        for (int node : {4, 5, 63, 64, 127, 128, 255}) {
            add({node, 0}, due);
            add({0, node}, due);
            add({node, node}, due);
        }
        for (int node : {0, 1, 2, 3}) {
            add({node, node}, due);
            add({node, (node + 1) % 4}, SOUND);
        }
        Draft wide = base;
        wide.nodes = 64;
        add_record(
            cases, wide, "span to node 63",
            [&](Draft &draft) {
                draft.spans[span] = {63, 62};
            },
            SOUND);
        add_record(
            cases, wide, "span to node 64",
            [&](Draft &draft) {
                draft.spans[span] = {63, 64};
            },
            due);
    }
}

void add_converter_records(Cases &cases) {
    const Draft base = rich();
    for (size_t record = 0; record < base.converters.size(); record++) {
        std::string due = refusal(9, base.begin(3) + 5 * record);
        auto add = [&](const std::string &name, const std::string &what, auto change) {
            add_record(
                cases, base, "converter " + std::to_string(record) + " " + name,
                [&](Draft &draft) { change(draft.converters[record]); }, what);
        };
        for (int node : {4, 64, 255}) {
            add("at node " + std::to_string(node), due, [&](Converter &converter) { converter.node = node; });
        }
        for (int channel : {16, 17, 255}) {
            add("from " + std::to_string(channel), due,
                [&](Converter &converter) { converter.from = channel; });
            add("to " + std::to_string(channel), due, [&](Converter &converter) { converter.to = channel; });
        }
        add("to the same", due, [](Converter &converter) { converter.to = converter.from; });
        add("at 65535", due, [](Converter &converter) { converter.tariff = 65535; });
        for (int tariff : {0, 1, 65533, 65534}) {
            add("at " + std::to_string(tariff), SOUND,
                [&](Converter &converter) { converter.tariff = tariff; });
        }
    }
}

// Records of converters that do not rise: by node, by channel from, by channel to, or not at all.
void add_converter_order(Cases &cases) {
    struct Two {
        Converter first, second;
        bool rises;
    };
    const std::vector<Two> twos = {
        {{1, 3, 4, 1}, {1, 3, 4, 1}, false},   {{1, 3, 4, 1}, {1, 3, 4, 2}, false},
        {{1, 3, 4, 1}, {1, 3, 5, 0}, true},    {{1, 3, 4, 1}, {1, 3, 2, 9}, false},
        {{1, 3, 4, 1}, {1, 4, 0, 0}, true},    {{1, 3, 4, 1}, {1, 2, 15, 9}, false},
        {{1, 3, 4, 1}, {2, 0, 1, 0}, true},    {{1, 3, 4, 1}, {0, 15, 14, 9}, false},
        {{0, 15, 14, 1}, {1, 0, 1, 0}, true},  {{3, 15, 13, 1}, {3, 15, 14, 1}, true},
        {{3, 15, 14, 1}, {0, 0, 1, 1}, false}, {{0, 0, 15, 1}, {0, 1, 0, 1}, true},
    };
    int number = 0;
    for (const Two &two : twos) {
        Draft draft = rich();
        draft.converters = {two.first, two.second};
        std::string due = two.rises ? SOUND : refusal(9, draft.begin(3) + 5);
        cases.add("converters in order " + std::to_string(number++), draft.written(), due);
    }
}

// Two faults at once, and three: the first in the order of judging decides.

struct Damage {
    std::string due;
    size_t at;
    size_t width;
    uint64_t number;
};

// All in the order in which they are judged, each on bytes of its own or on a field of one judged before.
std::vector<Damage> damages(const Draft &draft) {
    std::vector<Damage> all = {
        {refusal(2, 0), 0, 1, 2},  {refusal(3, 1), 1, 1, 0},   {refusal(3, 1), 1, 1, 5},
        {refusal(3, 2), 2, 1, 0},  {refusal(3, 2), 2, 1, 65},  {refusal(3, 3), 3, 1, 0},
        {refusal(3, 3), 3, 1, 17}, {refusal(3, 4), 4, 2, 257}, {refusal(3, 6), 6, 2, 4097}};
    for (size_t pair = 0; pair < 4; pair++) {
        size_t place = 8 + 8 * pair;
        all.push_back({pair_refusal(4, pair), place, 4, 39});
        all.push_back({pair_refusal(5, pair), place + 4, 4, 1});
        all.push_back({pair_refusal(6, pair), place, 4, 70000});
    }
    for (size_t channel = 0; channel < 16; channel += 5) {
        size_t place = draft.begin(0) + 2 * channel;
        all.push_back({refusal(7, place), place, 2, 1001});
    }
    for (size_t span = 0; span < 4; span++) {
        size_t place = draft.begin(1) + 2 * span;
        all.push_back({refusal(8, place), place, 1, 64});
    }
    for (size_t record = 0; record < draft.converters.size(); record += 2) {
        size_t place = draft.begin(3) + 5 * record;
        all.push_back({refusal(9, place), place + 3, 2, 65535});
    }
    return all;
}

bool meet(const Damage &one, const Damage &other) {
    return one.at < other.at + other.width && other.at < one.at + one.width;
}

void add_several(Cases &cases) {
    const Draft draft = rich();
    const std::vector<Damage> all = damages(draft);
    auto with = [&](const std::vector<Damage> &some) {
        std::string bytes = draft.written();
        for (const Damage &damage : some) {
            put(bytes, damage.at, damage.width, damage.number);
        }
        return bytes;
    };
    for (size_t first = 0; first < all.size(); first++) {
        cases.add("fault " + std::to_string(first), with({all[first]}), all[first].due);
        for (size_t second = first + 1; second < all.size(); second++) {
            if (!meet(all[first], all[second])) {
                std::string name = "faults " + std::to_string(first) + " and " + std::to_string(second);
                cases.add(name, with({all[first], all[second]}), all[first].due);
                cases.add(name + ", cut", with({all[first], all[second]}).substr(0, 39), refusal(1, 0));
            }
        }
    }
    cases.add("all of them", with(all), all[0].due);
}

// Every byte of the sample plan becomes every other, is taken out, or has one put in before it.
void add_each_byte(Cases &cases) {
    const std::string whole = sample().written();
    for (size_t at = 0; at < whole.size(); at++) {
        std::string name = "byte " + std::to_string(at);
        for (int byte = 0; byte < 256; byte++) {
            std::string bytes = whole;
            bytes[at] = char(byte);
            cases.add(name + " is " + std::to_string(byte), bytes, {});
        }
        std::string without = whole, longer = whole;
        cases.add(name + " taken out", without.erase(at, 1), {});
        for (int byte : {0, 1, 255}) {
            cases.add(name + " moved by one", std::string(longer).insert(at, 1, char(byte)), {});
        }
    }
}

// The damages that docs/plan-file.md works through.
void add_documented(Cases &cases) {
    auto add = [&](const std::string &name, const std::vector<std::array<size_t, 2>> &bytes,
                   const std::string &due) {
        std::string plan = sample().written();
        for (auto [at, value] : bytes) {
            plan[at] = char(value);
        }
        cases.add(name, plan, due);
    };
    add("documented 1", {{2, 65}}, refusal(3, 2));
    add("documented 2", {{0, 9}, {2, 65}}, refusal(2, 0));
    add("documented 3", {{40, 0}, {41, 1}, {42, 0}, {43, 1}}, refusal(7, 42));
    add("documented 4", {{42, 3}, {43, 0xE8}}, SOUND);
    add("documented 5", {{42, 3}, {43, 0xE9}}, refusal(7, 42));
    add("documented 6", {{50, 2}, {51, 2}}, refusal(8, 50));
    add("documented 7", {{19, 0x2B}}, pair_refusal(4, 1));
    add("documented 8", {{68, 9}, {51, 9}}, refusal(8, 50));
}

} // namespace

std::vector<Case> plan_limit_cases() {
    Cases cases;
    for (auto add :
         {add_sizes, add_header_bytes, add_counts, add_full, add_pairs, add_number_records, add_span_records,
          add_converter_records, add_converter_order, add_several, add_each_byte, add_documented}) {
        add(cases);
    }
    return cases.made;
}
