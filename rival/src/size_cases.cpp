// Networks and books at their limits (docs/network.md, docs/book.md).
#include "cases.h"
#include "draft.h"
#include "judge.h"
#include "lines.h"

namespace {

const std::vector<std::string> KINDS = {"SUM", "FEW", "WORST"};

Case on(const std::string &name, const Draft &draft, const std::string &input) {
    Case tried{"size: " + name, {}, "sound"};
    tried.given.plan = draft.written();
    tried.given.input = with_slips(input);
    return tried;
}

std::string order(const std::string &verb, int circuit, int from, int to, const std::string &kind) {
    return verb + " " + std::to_string(circuit) + " " + std::to_string(from) + " " + std::to_string(to) +
           " " + kind + "\n";
}

std::string some_order(Random &random, const std::string &verb, int circuit, int nodes) {
    int from = random.below(nodes);
    return order(verb, circuit, from, (from + random.between(1, nodes - 1)) % nodes, random.pick(KINDS));
}

// All circuits are lit, if there is room; asked for again, one by one; darkened, and lit anew.
std::string full_day(Random &random, int nodes) {
    std::string text;
    for (int round = 0; round < 2; round++) {
        for (int circuit = 0; circuit < 129; circuit++) {
            text += some_order(random, "LIGHT", circuit, nodes);
        }
        for (int circuit = 0; circuit < 129; circuit++) {
            std::string number = std::to_string(circuit);
            text += "SLIP " + number + "\n" + some_order(random, "QUOTE", circuit, nodes) +
                    some_order(random, "LIGHT", circuit, nodes);
            text += (circuit % 3 == round ? "DARK " + number + "\nDARK " + number + "\n" : "") +
                    some_order(random, "QUOTE", circuit, nodes);
        }
        for (int circuit = 128; circuit >= 0; circuit--) {
            text += "DARK " + std::to_string(circuit) + "\n" + some_order(random, "QUOTE", 5, nodes);
        }
    }
    return text;
}

// The fee from each node to each other, and with each span shut.
std::string all_fees(Random &random, const Draft &draft) {
    std::string text;
    for (int from = 0; from < draft.nodes; from++) {
        for (int to = 0; to < draft.nodes; to++) {
            text += order("QUOTE", 0, from, to, random.pick(KINDS));
        }
    }
    for (int span = 0; span < int(draft.spans.size()); span++) {
        Span ends = draft.spans[size_t(span)];
        text += "TRIAL " + std::to_string(ends.tail) + " " + std::to_string(ends.head) + " " +
                std::to_string(span) + " " + random.pick(KINDS) + "\n";
    }
    return text;
}

// Spans are shut one by one, and fees asked for in between.
std::string closing_day(Random &random, const Draft &draft) {
    std::string text;
    for (int span = 0; span < int(draft.spans.size()) + 1; span++) {
        text += some_order(random, "LIGHT", span % 40, draft.nodes) +
                some_order(random, "QUOTE", 100, draft.nodes);
        text += "SHUT " + std::to_string(span) + "\n" +
                (span % 5 == 0 ? "DARK " + std::to_string(span % 40) + "\n" : "");
        text += some_order(random, "QUOTE", 101, draft.nodes);
    }
    return text;
}

void add_large(std::vector<Case> &cases, Random &random) {
    for (int times = 0; times < 4; times++) {
        Draft draft = full_draft(random, 64, 16, 256, times % 2 ? 4096 : 0);
        cases.push_back(on("all circuits", draft, full_day(random, 64)));
        cases.push_back(on("all fees", draft, all_fees(random, draft)));
        cases.push_back(on("all spans shut", draft, closing_day(random, draft)));
    }
    for (int times = 0; times < 8; times++) {
        int nodes = random.between(2, 12), channels = random.between(1, 8);
        Draft draft = full_draft(random, nodes, channels, random.between(1, 150), 10);
        cases.push_back(on("all circuits of a small one", draft, full_day(random, nodes)));
        cases.push_back(on("all fees of a small one", draft, all_fees(random, draft)));
        cases.push_back(on("all spans of a small one shut", draft, closing_day(random, draft)));
    }
}

// Two nodes and so many channels between them, all equally cheap: the book is filled to the last channel,
// or to the last circuit.
void add_parallel(std::vector<Case> &cases) {
    for (auto [spans, channels] : std::vector<std::array<int, 2>>{
             {8, 16}, {127, 1}, {128, 1}, {129, 1}, {9, 15}, {256, 16}, {1, 1}, {1, 16}}) {
        Draft draft;
        draft.nodes = 2;
        draft.channels = channels;
        for (int channel = 0; channel < channels; channel++) {
            draft.numbers.push_back(channel * 60 - 500);
        }
        draft.spans.assign(size_t(spans), {0, 1});
        draft.tariffs.assign(size_t(spans * channels), 65534);
        std::string text;
        for (int circuit = 0; circuit < 130; circuit++) {
            text += order("LIGHT", circuit, 0, 1, KINDS[size_t(circuit % 3)]) +
                    order("QUOTE", 127, 0, 1, "FEW") + "TRIAL 0 1 0 SUM\n";
        }
        for (int circuit = 0; circuit < 130; circuit += 2) {
            text += "DARK " + std::to_string(circuit) + "\n" + order("QUOTE", circuit, 0, 1, "SUM") +
                    order("LIGHT", circuit, 1, 0, "SUM");
        }
        cases.push_back(
            on("parallel " + std::to_string(spans) + " " + std::to_string(channels), draft, text));
    }
}

// The longest paths.
void add_winding(std::vector<Case> &cases) {
    for (auto [ring, channels] :
         std::vector<std::array<int, 2>>{{2, 2}, {5, 3}, {62, 2}, {62, 15}, {61, 16}, {62, 16}}) {
        Draft draft = winding_draft(ring, channels);
        std::string text;
        for (const std::string &kind : KINDS) {
            text += order("LIGHT", 9, ring, ring + 1, kind) + order("QUOTE", 8, ring, ring + 1, kind) +
                    "SLIP 9\nDARK 9\n";
            text += order("LIGHT", 9, 1, ring + 1, kind) + order("QUOTE", 8, ring, ring - 1, kind) +
                    "SLIP 9\nDARK 9\n";
        }
        cases.push_back(on("winding " + std::to_string(ring) + " " + std::to_string(channels), draft, text));
        for (int &tariff : draft.tariffs) {
            tariff = tariff == NO_TARIFF ? NO_TARIFF : LARGEST_TARIFF;
        }
        for (Converter &converter : draft.converters) {
            converter.tariff = LARGEST_TARIFF;
        }
        cases.push_back(
            on("winding and dear " + std::to_string(ring) + " " + std::to_string(channels), draft, text));
    }
}

// The network of docs/semilightpaths.md whose only path passes a node twice.
void add_passed_twice(std::vector<Case> &cases) {
    Draft draft;
    draft.nodes = 4;
    draft.channels = 3;
    draft.numbers = {-7, 0, 7};
    draft.spans = {{0, 1}, {1, 2}, {1, 3}, {3, 1}};
    const int no = NO_TARIFF;
    draft.tariffs = {2, no, no, no, no, 3, no, 1, no, no, 1, no};
    draft.converters = {{1, 0, 1, 1}, {1, 1, 2, 1}};
    std::string text;
    for (const std::string &kind : KINDS) {
        text += order("QUOTE", 1, 0, 2, kind) + order("LIGHT", 1, 0, 2, kind) +
                order("QUOTE", 2, 1, 3, kind) + "DARK 1\n" + order("QUOTE", 2, 1, 3, kind);
        text += "TRIAL 0 2 2 " + kind + "\nTRIAL 0 3 3 " + kind + "\n";
    }
    cases.push_back(on("a node is passed twice", draft, text));
}

} // namespace

std::vector<Case> size_cases(uint64_t seed) {
    std::vector<Case> cases;
    Random random(seed ^ 0x5126);
    add_large(cases, random);
    add_parallel(cases);
    add_winding(cases);
    add_passed_twice(cases);
    return cases;
}
