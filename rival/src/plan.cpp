#include "plan.h"
#include <array>
#include <tuple>

namespace {

// Reads a plan in the order in which it is judged. The first fault is thrown.
class Reader {
public:
    explicit Reader(const std::string &bytes) : bytes(bytes) {}

    Network read() {
        judge_size();
        judge_header();
        judge_pairs();
        read_numbers();
        read_spans();
        read_tariffs();
        read_converters();
        return network;
    }

private:
    const std::string &bytes;
    Network network;
    int spans = 0;
    int converters = 0;
    std::array<uint64_t, 4> begins{};

    int byte(uint64_t at) const { return uint8_t(bytes[at]); }
    int two(uint64_t at) const { return byte(at) * 256 + byte(at + 1); }
    uint64_t four(uint64_t at) const { return uint64_t(two(at)) * 65536 + uint64_t(two(at + 2)); }

    static void refuse_if(bool fault, int number, uint64_t place) {
        if (fault) {
            throw Refusal{number, long(place)};
        }
    }

    void judge_size() { refuse_if(bytes.size() < 40 || bytes.size() > 65536, 1, 0); }

    void judge_header() {
        refuse_if(byte(0) != 1, 2, 0);
        network.spacing = byte(1);
        network.nodes = byte(2);
        network.channels = byte(3);
        spans = two(4);
        converters = two(6);
        refuse_if(network.spacing < 1 || network.spacing > 4, 3, 1);
        refuse_if(network.nodes < 1 || network.nodes > 64, 3, 2);
        refuse_if(network.channels < 1 || network.channels > 16, 3, 3);
        refuse_if(spans > 256, 3, 4);
        refuse_if(converters > 4096, 3, 6);
    }

    void judge_pairs() {
        uint64_t channels = uint64_t(network.channels), spanned = uint64_t(spans);
        const std::array<uint64_t, 4> lengths = {2 * channels, 2 * spanned, 2 * spanned * channels,
                                                 5 * uint64_t(converters)};
        uint64_t end = 40;
        for (uint64_t pair = 0; pair < 4; pair++) {
            uint64_t place = 8 + 8 * pair;
            uint64_t begin = four(place), length = four(place + 4);
            refuse_if(begin < end, 4, place);
            refuse_if(length != lengths[pair], 5, place);
            end = begin + length;
            refuse_if(end > bytes.size(), 6, place);
            begins[pair] = begin;
        }
    }

    void read_numbers() {
        int before = -1001;
        for (int channel = 0; channel < network.channels; channel++) {
            uint64_t place = begins[0] + 2 * uint64_t(channel);
            int number = int16_t(uint16_t(two(place)));
            refuse_if(number < -1000 || number > 1000 || number <= before, 7, place);
            network.numbers.push_back(number);
            before = number;
        }
    }

    void read_spans() {
        for (int span = 0; span < spans; span++) {
            uint64_t place = begins[1] + 2 * uint64_t(span);
            Span ends{byte(place), byte(place + 1)};
            bool absent = ends.tail >= network.nodes || ends.head >= network.nodes;
            refuse_if(absent || ends.tail == ends.head, 8, place);
            network.spans.push_back(ends);
        }
    }

    void read_tariffs() {
        for (int entry = 0; entry < spans * network.channels; entry++) {
            network.tariffs.push_back(two(begins[2] + 2 * uint64_t(entry)));
        }
    }

    void read_converters() {
        int channels = network.channels;
        network.converters.assign(size_t(network.nodes * channels * channels), NO_TARIFF);
        std::tuple<int, int, int> before{-1, -1, -1};
        for (int record = 0; record < converters; record++) {
            uint64_t place = begins[3] + 5 * uint64_t(record);
            int node = byte(place), from = byte(place + 1), to = byte(place + 2);
            int tariff = two(place + 3);
            bool absent = node >= network.nodes || from >= channels || to >= channels;
            refuse_if(absent || from == to || tariff == NO_TARIFF, 9, place);
            refuse_if(std::tuple{node, from, to} <= before, 9, place);
            network.converter(node, from, to) = tariff;
            before = {node, from, to};
        }
    }
};

} // namespace

std::variant<Refusal, Network> read_plan(const std::string &bytes) {
    try {
        return Reader(bytes).read();
    } catch (const Refusal &refusal) {
        return refusal;
    }
}
