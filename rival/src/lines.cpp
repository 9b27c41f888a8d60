#include "lines.h"

namespace {

// How the lines of one input are drawn.
struct Mix {
    // Weights of LIGHT, QUOTE, TRIAL, DARK, SHUT and SLIP.
    std::vector<int> weights;
    int circuits;
    // How many in a hundred are bad on purpose, or damaged.
    int bad;
};

const std::vector<std::string> VERBS = {"LIGHT", "QUOTE", "TRIAL", "DARK", "SHUT", "SLIP"};
const std::vector<std::string> KINDS = {"SUM", "FEW", "WORST"};

Mix some_mix(Random &random) {
    const std::vector<std::vector<int>> weights = {{30, 15, 15, 20, 2, 10}, {60, 5, 5, 10, 0, 5},
                                                   {20, 10, 10, 20, 15, 5}, {15, 30, 30, 10, 3, 5},
                                                   {30, 0, 0, 30, 0, 10},   {10, 5, 40, 5, 5, 5}};
    const std::vector<int> circuits = {2, 5, 12, 40, 128};
    const std::vector<int> bad = {0, 0, 5, 20, 60};
    return {random.pick(weights), random.pick(circuits), random.pick(bad)};
}

std::string padded(Random &random, int number) {
    std::string digits = std::to_string(number);
    if (random.chance(10) && digits.size() < 5) {
        digits.insert(0, size_t(random.between(1, 5 - int(digits.size()))), '0');
    }
    return digits;
}

// A number below a limit, but now and then at it or beyond.
std::string some_number(Random &random, int limit) {
    const std::vector<int> beyond = {limit, limit + 1, limit + 255, 127, 128, 255, 256, 32768, 65535};
    return padded(random, random.chance(3) ? random.pick(beyond) : random.below(limit));
}

std::string some_circuit(Random &random, const Mix &mix) {
    const std::vector<int> ends = {126, 127, 128, 129, 256, 65535};
    return padded(random, random.chance(3) ? random.pick(ends) : random.below(mix.circuits));
}

int some_verb(Random &random, const Mix &mix) {
    int whole = 0;
    for (int weight : mix.weights) {
        whole += weight;
    }
    int drawn = random.below(whole), verb = 0;
    while (drawn >= mix.weights[size_t(verb)]) {
        drawn -= mix.weights[size_t(verb++)];
    }
    return verb;
}

std::vector<std::string> good_words(Random &random, const Mix &mix, Sizes sizes) {
    int verb = some_verb(random, mix);
    std::vector<std::string> words = {VERBS[size_t(verb)]};
    std::string from = some_number(random, sizes.nodes), to = some_number(random, sizes.nodes);
    std::string circuit = some_circuit(random, mix), span = some_number(random, sizes.spans);
    switch (verb) {
    case 0:
    case 1: words.insert(words.end(), {circuit, from, to, random.pick(KINDS)}); break;
    case 2: words.insert(words.end(), {from, to, span, random.pick(KINDS)}); break;
    case 4: words.push_back(span); break;
    default: words.push_back(circuit); break;
    }
    return words;
}

std::string bad_word(Random &random) {
    const std::vector<std::string> words = {
        "65535",
        "65536",
        "99999",
        "100000",
        "000001",
        "00001",
        "123456789012345678901234567890",
        "X",
        "SUM",
        "FEW",
        "WORST",
        "BEST",
        "SU",
        "SUMS",
        "sum",
        "LIGHT",
        "LIGHTS",
        "light",
        "DARK",
        "TRY",
        "A1",
        "1A",
        "0",
        "",
        "\t",
        "\r",
        "-1",
        "+1",
        "1.0",
        "#",
        std::string(1, '\0'),
        "\xC3\x84",
        "0x10",
    };
    return random.pick(words);
}

void spoil(Random &random, std::vector<std::string> &words) {
    size_t at = size_t(random.below(int(words.size())));
    switch (random.below(5)) {
    case 0: words[at] = bad_word(random); break;
    case 1: words.insert(words.begin() + long(at), bad_word(random)); break;
    case 2: words.erase(words.begin() + long(at)); break;
    case 3: words.push_back(bad_word(random)); break;
    default: std::swap(words[at], words[size_t(random.below(int(words.size())))]); break;
    }
}

std::string joined(const std::vector<std::string> &words) {
    std::string line;
    for (const std::string &word : words) {
        line += (line.empty() ? "" : " ") + word;
    }
    return line;
}

std::string stretched(Random &random, std::string line) {
    size_t length = size_t(random.between(78, 83));
    const std::vector<std::string> fillers = {" 1", " A", "A", "1", "0", " ", " 00001"};
    const std::string &filler = random.pick(fillers);
    while (line.size() < length) {
        line += filler;
    }
    return line.substr(0, length);
}

std::string bad_line(Random &random, const Mix &mix, Sizes sizes) {
    std::vector<std::string> words = good_words(random, mix, sizes);
    switch (random.below(6)) {
    case 0: return damaged(random, joined(words), 1);
    case 1: return damaged(random, joined(words), random.between(2, 6));
    case 2: return stretched(random, joined(words));
    case 3:
        return random.chance(50) ? "" : std::string(size_t(random.below(200)), random.chance(50) ? 'A' : '7');
    default: break;
    }
    for (int times = random.between(1, 2); times > 0 && !words.empty(); times--) {
        spoil(random, words);
    }
    return joined(words);
}

} // namespace

std::string random_lines(Random &random, Sizes sizes, int count) {
    Mix mix = some_mix(random);
    std::string text;
    for (int line = 0; line < count; line++) {
        bool bad = random.chance(mix.bad);
        text += (bad ? bad_line(random, mix, sizes) : joined(good_words(random, mix, sizes))) + "\n";
    }
    if (random.chance(10) && !text.empty()) {
        text.pop_back();
    }
    return text;
}

std::string damaged(Random &random, std::string text, int times) {
    for (; times > 0; times--) {
        size_t at = size_t(random.below(int(text.size()) + 1));
        bool inside = at < text.size();
        switch (random.below(inside ? 6 : 1)) {
        case 0: text.insert(at, 1, char(random.below(256))); break;
        case 1: text[at] = char(random.below(256)); break;
        case 2: text[at] = char(text[at] ^ (1 << random.below(8))); break;
        case 3: text.erase(at, 1); break;
        case 4:
            text.insert(at,
                        text.substr(size_t(random.below(int(text.size()))), size_t(random.between(1, 8))));
            break;
        default:
            if (random.chance(20)) {
                text.resize(at);
            } else {
                text.erase(at, size_t(random.between(1, 8)));
            }
            break;
        }
    }
    return text;
}
