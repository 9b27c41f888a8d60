#include "draft.h"
#include <algorithm>
#include <set>
#include <tuple>

void put(std::string &bytes, size_t at, size_t width, uint64_t number) {
    for (size_t place = at + width; place-- > at;) {
        if (place < bytes.size()) {
            bytes[place] = char(number & 255);
        }
        number >>= 8;
    }
}

namespace {

void append(std::string &bytes, size_t width, uint64_t number) {
    bytes.append(width, '\0');
    put(bytes, bytes.size() - width, width, number);
}

} // namespace

size_t Draft::length(size_t section) const {
    const size_t lengths[] = {2 * numbers.size(), 2 * spans.size(), 2 * tariffs.size(),
                              5 * converters.size()};
    return lengths[section];
}

size_t Draft::begin(size_t section) const {
    size_t at = 40 + gaps[0].size();
    for (size_t before = 0; before < section; before++) {
        at += length(before) + gaps[before + 1].size();
    }
    return at;
}

std::string Draft::written() const {
    std::string bytes;
    append(bytes, 1, uint64_t(version));
    append(bytes, 1, uint64_t(spacing));
    append(bytes, 1, uint64_t(nodes));
    append(bytes, 1, uint64_t(channels));
    append(bytes, 2, spans.size());
    append(bytes, 2, converters.size());
    for (size_t section = 0; section < 4; section++) {
        append(bytes, 4, begin(section));
        append(bytes, 4, length(section));
    }
    bytes += gaps[0];
    for (int number : numbers) {
        append(bytes, 2, uint64_t(number & 0xFFFF));
    }
    bytes += gaps[1];
    for (Span span : spans) {
        append(bytes, 1, uint64_t(span.tail));
        append(bytes, 1, uint64_t(span.head));
    }
    bytes += gaps[2];
    for (int tariff : tariffs) {
        append(bytes, 2, uint64_t(tariff));
    }
    bytes += gaps[3];
    for (const Converter &converter : converters) {
        append(bytes, 1, uint64_t(converter.node));
        append(bytes, 1, uint64_t(converter.from));
        append(bytes, 1, uint64_t(converter.to));
        append(bytes, 2, uint64_t(converter.tariff));
    }
    return bytes + tail;
}

Draft sample() {
    Draft draft;
    draft.nodes = 4;
    draft.channels = 2;
    draft.numbers = {0, 1};
    draft.spans = {{0, 1}, {1, 3}, {0, 2}, {2, 3}};
    draft.tariffs = {2, 65535, 65535, 3, 4, 4, 5, 65535};
    draft.converters = {{1, 0, 1, 1}};
    return draft;
}

namespace {

// How tariffs are drawn: how many in a hundred are missing, and the largest.
struct Tariffs {
    int missing;
    int largest;

    int draw(Random &random) const { return random.chance(missing) ? NO_TARIFF : present(random); }
    int present(Random &random) const {
        return random.chance(3) ? LARGEST_TARIFF : random.between(0, largest);
    }
};

Tariffs some_tariffs(Random &random) {
    const std::vector<int> missing = {0, 10, 30, 60, 85};
    const std::vector<int> largest = {0, 1, 3, 10, 1000, LARGEST_TARIFF};
    return {random.pick(missing), random.pick(largest)};
}

std::vector<int> some_numbers(Random &random, int channels) {
    std::set<int> numbers;
    bool near = random.chance(50);
    int first = random.pick(std::vector<int>{-1000, -5, 0, 500, 1000 - channels});
    while (int(numbers.size()) < channels) {
        numbers.insert(near ? first + random.below(channels + 1) : random.between(-1000, 1000));
    }
    return {numbers.begin(), numbers.end()};
}

// A span's ends, by one of several shapes of network.
Span some_span(Random &random, int nodes, int shape, int number) {
    int tail = random.below(nodes), head = random.below(nodes);
    switch (shape) {
    case 0: tail = number % nodes, head = (tail + 1) % nodes; break;
    case 1: tail = number / 2 % nodes, head = (tail + (number % 2 ? 1 : nodes - 1)) % nodes; break;
    case 2: head = std::min(nodes - 1, tail + random.between(1, 3)); break;
    case 3: tail = random.below(std::min(nodes, 3)), head = random.below(std::min(nodes, 3)); break;
    default: break;
    }
    return tail == head ? Span{tail, (tail + 1 + random.below(nodes - 1)) % nodes} : Span{tail, head};
}

void add_spans(Draft &draft, Random &random, int spans, const Tariffs &tariffs) {
    int shape = random.below(8);
    for (int span = 0; span < spans; span++) {
        draft.spans.push_back(some_span(random, draft.nodes, shape, span));
        for (int channel = 0; channel < draft.channels; channel++) {
            draft.tariffs.push_back(tariffs.draw(random));
        }
    }
}

// So many converters, drawn from all that there can be, in order.
void add_converters(Draft &draft, Random &random, int wanted, const Tariffs &tariffs) {
    std::vector<Converter> all;
    for (int node = 0; node < draft.nodes; node++) {
        for (int from = 0; from < draft.channels; from++) {
            for (int to = 0; to < draft.channels; to++) {
                if (from != to) {
                    all.push_back({node, from, to, tariffs.present(random)});
                }
            }
        }
    }
    int left = int(all.size());
    for (const Converter &converter : all) {
        if (random.below(left) < wanted) {
            draft.converters.push_back(converter);
            wanted--;
        }
        left--;
    }
}

std::string some_bytes(Random &random, int most) {
    std::string bytes(size_t(random.between(0, most)), '\0');
    for (char &byte : bytes) {
        byte = char(random.below(256));
    }
    return bytes;
}

} // namespace

Draft full_draft(Random &random, int nodes, int channels, int spans, int converters) {
    Draft draft;
    draft.nodes = nodes;
    draft.channels = channels;
    draft.spacing = random.between(1, 4);
    draft.numbers = some_numbers(random, channels);
    Tariffs tariffs = some_tariffs(random);
    add_spans(draft, random, nodes > 1 ? spans : 0, tariffs);
    add_converters(draft, random, converters, tariffs);
    return draft;
}

Draft random_draft(Random &random) {
    const std::vector<std::array<int, 3>> sizes = {
        {4, 3, 8}, {6, 4, 16}, {10, 4, 30}, {20, 8, 80}, {64, 16, 256}};
    const std::vector<int> usual = {0, 0, 0, 1, 1, 1, 1, 2, 2, 2, 3, 3, 4};
    auto [most_nodes, most_channels, most_spans] = sizes[size_t(random.pick(usual))];
    int nodes = random.between(random.chance(10) ? 1 : 2, most_nodes);
    int channels = random.between(1, most_channels);
    int spans = random.between(random.chance(10) ? 0 : nodes, most_spans);
    int most = std::min(4096, nodes * channels * (channels - 1));
    int converters = random.pick(std::vector<int>{0, most / 10, most / 3, most});
    Draft draft = full_draft(random, nodes, channels, spans, converters);
    for (std::string &gap : draft.gaps) {
        gap = random.chance(15) ? some_bytes(random, 9) : "";
    }
    draft.tail = random.chance(15) ? some_bytes(random, 300) : "";
    return draft;
}

Draft winding_draft(int ring, int channels) {
    Draft draft;
    int start = ring, end = ring + 1, last = channels - 1;
    draft.nodes = ring + 2;
    draft.channels = channels;
    for (int channel = 0; channel < channels; channel++) {
        draft.numbers.push_back(channel);
    }
    auto add = [&](int tail, int head, auto tariff) {
        draft.spans.push_back({tail, head});
        for (int channel = 0; channel < channels; channel++) {
            draft.tariffs.push_back(tariff(channel));
        }
    };
    add(start, 0, [&](int channel) { return channel == 0 ? 1 : NO_TARIFF; });
    for (int node = 0; node < ring; node++) {
        add(node, (node + 1) % ring, [&](int) { return 1; });
    }
    add(ring - 2, end, [&](int channel) { return channel == last ? 1 : NO_TARIFF; });
    for (int channel = 0; channel < last; channel++) {
        draft.converters.push_back({ring - 1, channel, channel + 1, 1});
    }
    return draft;
}
