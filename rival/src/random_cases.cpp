// Cases that are drawn: plans sound and damaged, lines good and bad.
#include "cases.h"
#include "draft.h"
#include "judge.h"
#include "lines.h"
#include "plan.h"
#include <algorithm>
#include <set>

namespace {

// One of the counts, or of the offsets and lengths, put near a limit or near what it was.
std::string with_odd_header(Random &random, std::string bytes) {
    if (random.chance(40)) {
        size_t at = size_t(random.between(0, 7));
        put(bytes, at, 1, uint64_t(random.pick(std::vector<int>{0, 1, 2, 4, 5, 16, 17, 64, 65, 255})));
        return bytes;
    }
    size_t at = 8 + 4 * size_t(random.below(8));
    uint64_t now = 0;
    for (size_t byte = at; byte < at + 4; byte++) {
        now = now * 256 + uint8_t(bytes[byte]);
    }
    const std::vector<uint64_t> others = {now - 1,
                                          now + 1,
                                          0,
                                          39,
                                          40,
                                          bytes.size(),
                                          bytes.size() + 1,
                                          4294967295u,
                                          4294967292u,
                                          4294967295u - now + 1,
                                          1u << 31,
                                          now + 65536,
                                          now + (1u << 24)};
    put(bytes, at, 4, random.pick(others) & 4294967295u);
    return bytes;
}

// One record of one of the sections changed.
Draft with_odd_record(Random &random, Draft draft) {
    switch (random.below(3)) {
    case 0: {
        int &number = draft.numbers[size_t(random.below(draft.channels))];
        number = random.pick(
            std::vector<int>{-1001, -1000, number - 1, number + 1, 1000, 1001, -number, 32767, -32768});
        break;
    }
    case 1:
        if (!draft.spans.empty()) {
            Span &span = draft.spans[size_t(random.below(int(draft.spans.size())))];
            int &end = random.chance(50) ? span.tail : span.head;
            end = random.pick(std::vector<int>{draft.nodes - 1, draft.nodes, 255, span.tail, span.head, 0});
        }
        break;
    default:
        if (!draft.converters.empty()) {
            size_t at = size_t(random.below(int(draft.converters.size())));
            size_t other = size_t(random.below(int(draft.converters.size())));
            Converter &converter = draft.converters[at];
            switch (random.below(5)) {
            case 0:
                converter.node = random.pick(std::vector<int>{0, draft.nodes - 1, draft.nodes, 255});
                break;
            case 1:
                converter.from =
                    random.pick(std::vector<int>{0, draft.channels - 1, draft.channels, converter.to});
                break;
            case 2:
                converter.to =
                    random.pick(std::vector<int>{0, draft.channels - 1, draft.channels, converter.from});
                break;
            case 3: converter.tariff = random.pick(std::vector<int>{65534, 65535}); break;
            default: std::swap(draft.converters[at], draft.converters[other]); break;
            }
        }
        break;
    }
    return draft;
}

std::string damaged_plan(Random &random, Draft draft) {
    switch (random.below(4)) {
    case 0: return damaged(random, draft.written(), random.between(1, 4));
    case 1: return with_odd_header(random, draft.written());
    case 2: return with_odd_record(random, std::move(draft)).written();
    default: {
        // A byte of the header, or of a short plan, is flipped.
        std::string bytes = draft.written();
        size_t at = size_t(random.below(int(std::min<size_t>(bytes.size(), 120))));
        bytes[at] = char(bytes[at] ^ (1 << random.below(8)));
        return bytes;
    }
    }
}

// Places at which the input is cut; none where it comes from a file.
std::vector<size_t> some_cuts(Random &random, size_t length) {
    if (length == 0 || random.chance(50)) {
        return {};
    }
    std::set<size_t> cuts;
    for (int cut = random.between(1, random.chance(20) ? 60 : 6); cut > 0; cut--) {
        cuts.insert(size_t(random.below(int(length) + 1)));
    }
    return {cuts.begin(), cuts.end()};
}

} // namespace

Case random_case(uint64_t seed, int number) {
    Random random(seed * 1000003 + uint64_t(number));
    Draft draft = random_draft(random);
    bool damage = random.chance(25);
    Given given;
    given.plan = damage ? damaged_plan(random, draft) : draft.written();
    int count = random.pick(std::vector<int>{0, 5, 20, 40, 80, 150});
    given.input =
        random_lines(random, {draft.nodes, int(draft.spans.size())}, damage ? std::min(count, 20) : count);
    if (random.chance(10)) {
        given.input = damaged(random, given.input, random.between(1, 20));
    }
    given.input = with_slips(given.input);
    given.cuts = some_cuts(random, given.input.size());
    return {"random " + std::to_string(number), given};
}
