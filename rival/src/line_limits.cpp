// Every limit of lines from both sides (docs/tickets.md, docs/console.md), every byte at every place of
// some tickets, and input in every form.
#include "cases.h"
#include "draft.h"
#include "judge.h"
#include <set>

namespace {

const std::vector<std::string> TICKETS = {
    "LIGHT 1 0 3 SUM", "QUOTE 2 0 3 FEW",       "TRIAL 0 3 0 WORST",   "DARK 1",    "SHUT 65535", "SHUT 3",
    "SLIP 1",          "LIGHT 127 00000 3 FEW", "TRIAL 0 1 65535 SUM", "DARK 00128"};

Case on_sample(const std::string &name, const std::string &input) {
    Case tried{"lines: " + name, {}};
    tried.given.plan = sample().written();
    tried.given.input = with_slips(input);
    return tried;
}

// Every byte but the one that ends lines, in place of each byte of a ticket and put in before it.
std::string with_each_byte(const std::string &ticket) {
    std::string text;
    for (size_t at = 0; at <= ticket.size(); at++) {
        for (int byte = 0; byte < 256; byte++) {
            std::string other = ticket, longer = ticket;
            if (byte != '\n') {
                text += longer.insert(at, 1, char(byte)) + "\n";
                if (at < ticket.size()) {
                    other[at] = char(byte);
                    text += other + "\n";
                }
            }
        }
    }
    return text;
}

// Each part of a ticket taken out, doubled, or turned round.
std::string with_each_part(const std::string &ticket) {
    std::string text;
    for (size_t from = 0; from < ticket.size(); from++) {
        for (size_t length = 1; from + length <= ticket.size(); length++) {
            std::string less = ticket, more = ticket, turned = ticket;
            std::string part = ticket.substr(from, length);
            text += less.erase(from, length) + "\n" + more.insert(from, part) + "\n" + part + "\n";
            text += turned.replace(from, length, std::string(part.rbegin(), part.rend())) + "\n";
        }
    }
    return text;
}

// Every line of one byte and of two.
std::string shortest_lines() {
    std::string text;
    for (int first = 0; first < 256; first++) {
        for (int second = -1; second < 256; second++) {
            std::string line(1, char(first));
            line += second < 0 ? "" : std::string(1, char(second));
            if (line.find('\n') == std::string::npos) {
                text += line + "\n";
            }
        }
    }
    return text;
}

// Lines of all lengths about the limit, and far beyond, of several sorts of bytes.
std::string long_lines() {
    std::string text;
    const std::vector<std::string> fillers = {
        "A", "1", " ", "A ", "1 ", "SUM 1 ", "12345 ", "00001 ", "LIGHT ", std::string(1, '\0'), "\r", "#"};
    std::vector<size_t> lengths;
    for (size_t length = 0; length <= 170; length++) {
        lengths.push_back(length);
    }
    for (size_t near : {256, 512, 1024, 4096, 8192, 65536}) {
        lengths.insert(lengths.end(), {near - 1, near, near + 1});
    }
    for (size_t length : lengths) {
        for (const std::string &filler : fillers) {
            for (const std::string &start :
                 {std::string(), std::string("LIGHT 1 0 3 SUM "), std::string("SHUT ")}) {
                std::string line = start;
                while (line.size() < length) {
                    line += filler;
                }
                text += line.substr(0, length) + "\n";
            }
        }
    }
    return text;
}

const std::vector<std::string> WORDS = {"0",
                                        "00",
                                        "000",
                                        "0000",
                                        "00000",
                                        "000000",
                                        "1",
                                        "01",
                                        "2",
                                        "3",
                                        "4",
                                        "5",
                                        "00003",
                                        "000003",
                                        "63",
                                        "64",
                                        "65",
                                        "126",
                                        "127",
                                        "128",
                                        "129",
                                        "255",
                                        "256",
                                        "257",
                                        "32767",
                                        "32768",
                                        "65534",
                                        "65535",
                                        "065535",
                                        "65536",
                                        "65537",
                                        "70000",
                                        "99999",
                                        "100000",
                                        "655350",
                                        "123456789",
                                        "4294967296",
                                        "18446744073709551616",
                                        "00000000000000000000001",
                                        "SUM",
                                        "FEW",
                                        "WORST",
                                        "SU",
                                        "SUMS",
                                        "WORS",
                                        "WORSTS",
                                        "FEWE",
                                        "MUS",
                                        "A",
                                        "Z",
                                        "LIGHT",
                                        "X1",
                                        "1X",
                                        "X12345678",
                                        "12345X",
                                        "123456X",
                                        "123456#",
                                        "12345#",
                                        "sum",
                                        "-1",
                                        "+1",
                                        "1,0",
                                        "0x1"};

// Each of many words in each place of each ticket; and with the last words left out, and more behind.
std::string with_each_word() {
    const std::vector<std::vector<std::string>> tickets = {{"LIGHT", "1", "0", "3", "SUM"},
                                                           {"QUOTE", "2", "0", "3", "FEW"},
                                                           {"TRIAL", "0", "3", "0", "WORST"},
                                                           {"DARK", "1"},
                                                           {"SHUT", "4"},
                                                           {"SLIP", "1"}};
    std::string text;
    for (const std::vector<std::string> &ticket : tickets) {
        for (size_t place = 0; place <= ticket.size(); place++) {
            for (const std::string &word : WORDS) {
                std::string instead, before;
                for (size_t at = 0; at <= ticket.size(); at++) {
                    std::string here = at < ticket.size() ? ticket[at] : "";
                    instead += at == place ? word : here;
                    before += at == place ? word + (here.empty() ? "" : " " + here) : here;
                    instead += at + 1 < ticket.size() || (at + 1 == ticket.size() && place == ticket.size())
                                   ? " "
                                   : "";
                    before += at + 1 < ticket.size() || (at + 1 == ticket.size() && place == ticket.size())
                                  ? " "
                                  : "";
                }
                text += instead + "\n" + before + "\n" + word + "\n";
            }
        }
    }
    return text;
}

// From one word to more than a line holds, behind each verb and behind none.
std::string with_each_count() {
    std::string text;
    for (std::string verb : {"LIGHT", "QUOTE", "TRIAL", "DARK", "SHUT", "SLIP", "TRY", "1"}) {
        for (std::string word : {" 1", " A", " SUM", " 00000"}) {
            std::string line = verb;
            for (int count = 0; count < 42; count++) {
                text += line + "\n";
                line += word;
            }
        }
    }
    return text;
}

// Every circuit, node and span number about the limits of the sample network, and far beyond.
std::string with_each_number() {
    std::string text;
    std::set<int> numbers = {65535, 65534, 32768, 32767, 1000, 512, 256, 255};
    for (int number = 0; number < 140; number++) {
        numbers.insert(number);
    }
    for (int number : numbers) {
        std::string told = std::to_string(number);
        text += "QUOTE " + told + " 0 3 SUM\nQUOTE 5 " + told + " 3 FEW\nQUOTE 5 0 " + told + " WORST\n";
        text += "TRIAL " + told + " 3 0 SUM\nTRIAL 0 " + told + " 0 FEW\nTRIAL 0 3 " + told +
                " WORST\nTRIAL 4 4 " + told + " SUM\n";
        text += "LIGHT " + told + " 0 3 SUM\nDARK " + told + "\nSLIP " + told + "\nDARK " + told + "\n";
        text +=
            "LIGHT 5 " + told + " " + told + " FEW\nDARK 5\nSLIP " + told + "\nQUOTE " + told + " 4 0 SUM\n";
    }
    return text + "SHUT 4\nSHUT 5\nSHUT 255\nSHUT 256\nSHUT 65535\nSHUT 3\nSHUT 3\nQUOTE 1 0 3 SUM\nQUOTE 1 "
                  "0 3 FEW\n";
}

void add_lines(std::vector<Case> &cases) {
    for (const std::string &ticket : TICKETS) {
        cases.push_back(on_sample("each byte of " + ticket, with_each_byte(ticket)));
        cases.push_back(on_sample("each part of " + ticket, with_each_part(ticket)));
    }
    cases.push_back(on_sample("shortest", shortest_lines()));
    cases.push_back(on_sample("longest", long_lines()));
    cases.push_back(on_sample("words", with_each_word()));
    cases.push_back(on_sample("counts of words", with_each_count()));
    cases.push_back(on_sample("numbers", with_each_number()));
}

// A day of tickets, for the forms in which input can come.
std::string day() {
    return with_slips(
        "LIGHT 1 0 3 SUM\nLIGHT 2 0 3 SUM\nDARK X1\n\nSHUT 0\nQUOTE 3 0 3 FEW\nDARK 1\nTRIAL 0 3 0 SUM\n" +
        std::string(80, 'A') + "\n" + std::string(81, 'A') + "\n" + std::string(200, '7') +
        "\nSHUT  1\nDARK 2\nLIGHT 7 0 3 WORST\nSLIP 7");
}

// The day, cut into two reads at each place; read byte by byte; and each ticket sent after the reply before.
void add_cuts(std::vector<Case> &cases) {
    std::string text = day();
    Case by_bytes = on_sample("read byte by byte", text);
    for (size_t at = 0; at <= text.size(); at++) {
        Case tried = on_sample("cut at " + std::to_string(at), text);
        tried.given.cuts = {at};
        cases.push_back(tried);
        by_bytes.given.cuts.push_back(at);
    }
    cases.push_back(by_bytes);
    Case in_turn = on_sample("each after the reply before", text);
    for (size_t at = text.find('\n'); at != std::string::npos; at = text.find('\n', at + 1)) {
        in_turn.given.cuts.push_back(at + 1);
    }
    in_turn.given.in_turn = true;
    cases.push_back(in_turn);
}

// Every front of the day, with no end of line put to it.
void add_ends(std::vector<Case> &cases) {
    std::string text = day();
    for (size_t length = 0; length <= text.size(); length++) {
        cases.push_back(on_sample("the first " + std::to_string(length) + " bytes", text.substr(0, length)));
    }
}

const size_t LONG = 16 * 1024 * 1024;

// One line of 16 MiB, of several sorts of bytes, with and without an end, by file and by pipe, and with
// no more memory than 6 MiB.
void add_longest(std::vector<Case> &cases) {
    for (const std::string &filler : {std::string("A"), std::string(1, '\0'), std::string("SHUT 3 ")}) {
        for (std::string end : {"", "\n", "\nSHUT 3\nLIGHT 1 0 3 SUM\nDARK 1\n"}) {
            Case tried = on_sample("16 MiB of " + filler, end);
            tried.filler = filler;
            tried.filled = LONG;
            tried.given.memory = 6144;
            cases.push_back(tried);
            tried.given.cuts = {1, 80, 81, 82, LONG - 1, LONG};
            cases.push_back(tried);
        }
    }
    for (size_t length : {4095, 4096, 4097, 8192, 65535, 65536, 65537, 131072, 1048576}) {
        Case tried = on_sample("a line that ends at " + std::to_string(length),
                               std::string(length - 1, '1') + "\nDARK 1\nSHUT 3\n");
        cases.push_back(tried);
        tried = on_sample("tickets to " + std::to_string(length), "");
        while (tried.given.input.size() + 7 <= length) {
            tried.given.input += "SHUT 3\n";
        }
        cases.push_back(tried);
    }
    cases.push_back(on_sample("100000 empty lines", std::string(100000, '\n')));
    cases.push_back(on_sample("nothing", ""));
    cases.push_back(on_sample("one newline", "\n"));
    cases.push_back(
        on_sample("lines that end with CR and newline", "SHUT 3\r\nDARK 1\r\n\r\nLIGHT 1 0 3 SUM\r\n"));
    cases.push_back(on_sample("with a byte order mark", "\xEF\xBB\xBFSHUT 3\nSHUT 3\n"));
}

// Plans that are no files, and what can't be read or written.
void add_odd_plans(std::vector<Case> &cases) {
    for (const std::string &input : {std::string(), day()}) {
        Case tried = on_sample("no plan", input);
        tried.given.plan_is = PlanIs::Missing;
        cases.push_back(tried);
        tried = on_sample("a plan that comes in parts", input);
        tried.given.plan_is = PlanIs::NamedPipe;
        cases.push_back(tried);
        tried = on_sample("a plan that is a folder", input);
        tried.given.plan_is = PlanIs::Folder;
        tried.fails = true;
        cases.push_back(tried);
        tried = on_sample("input that is a folder", input);
        tried.given.input_is_folder = true;
        tried.fails = true;
        cases.push_back(tried);
    }
    Case tried = on_sample("output that is full", day());
    tried.given.output_is_full = true;
    tried.fails = true;
    cases.push_back(tried);
    tried.given.plan = "no plan";
    cases.push_back(tried);
}

} // namespace

std::vector<Case> line_limit_cases() {
    std::vector<Case> cases;
    for (auto add : {add_lines, add_cuts, add_ends, add_longest, add_odd_plans}) {
        add(cases);
    }
    return cases;
}
