#include "ticket.h"
#include <optional>
#include <vector>

namespace {

const size_t LONGEST_LINE = 80;

struct Word {
    std::string letters;
    long place;

    bool is_number() const { return letters[0] >= '0' && letters[0] <= '9'; }
    long number() const { return std::stol(letters); }
};

bool is_letter(char byte) { return byte >= 'A' && byte <= 'Z'; }
bool is_digit(char byte) { return byte >= '0' && byte <= '9'; }

void judge_run(const Word &run) {
    if (run.is_number() && (run.letters.size() > 5 || run.number() > 65535)) {
        throw Refusal{15, run.place};
    }
}

// What a byte is refused for, before and last being the bytes about it.
void judge_byte(const std::string &line, size_t at) {
    char byte = line[at];
    char before = at == 0 ? ' ' : line[at - 1];
    if (byte == ' ') {
        if (before == ' ' || at + 1 == line.size()) {
            throw Refusal{13, long(at) + 1};
        }
        return;
    }
    bool mixed = (is_letter(byte) && is_digit(before)) || (is_digit(byte) && is_letter(before));
    if (mixed || !(is_letter(byte) || is_digit(byte))) {
        throw Refusal{14, long(at) + 1};
    }
}

std::vector<Word> words(const std::string &line) {
    if (line.empty() || line.size() > LONGEST_LINE) {
        throw Refusal{12, 0};
    }
    std::vector<Word> found;
    bool in_run = false;
    for (size_t at = 0; at < line.size(); at++) {
        bool of_run = is_letter(line[at]) || is_digit(line[at]);
        if (in_run && !of_run) {
            judge_run(found.back());
        }
        judge_byte(line, at);
        if (of_run && !in_run) {
            found.push_back({"", long(at) + 1});
        }
        if (of_run) {
            found.back().letters += line[at];
        }
        in_run = of_run;
    }
    if (in_run) {
        judge_run(found.back());
    }
    return found;
}

struct Form {
    const char *name;
    Verb verb;
    size_t numbers;
    bool has_kind;
};

const Form FORMS[] = {
    {"LIGHT", Verb::Light, 3, true}, {"QUOTE", Verb::Quote, 3, true}, {"TRIAL", Verb::Trial, 3, true},
    {"DARK", Verb::Dark, 1, false},  {"SHUT", Verb::Shut, 1, false},  {"SLIP", Verb::Slip, 1, false},
};

const Form &form_of(const Word &word) {
    for (const Form &form : FORMS) {
        if (word.letters == form.name) {
            return form;
        }
    }
    throw Refusal{16, word.place};
}

int number_of(const Word &word) {
    if (!word.is_number()) {
        throw Refusal{18, word.place};
    }
    return int(word.number());
}

Kind kind_of(const Word &word) {
    if (word.is_number()) {
        throw Refusal{18, word.place};
    }
    if (word.letters == "SUM") {
        return Kind::Sum;
    }
    if (word.letters == "FEW") {
        return Kind::Few;
    }
    if (word.letters == "WORST") {
        return Kind::Worst;
    }
    throw Refusal{19, word.place};
}

Ticket ticket_of(const std::string &line) {
    std::vector<Word> told = words(line);
    const Form &form = form_of(told[0]);
    size_t due = 1 + form.numbers + (form.has_kind ? 1 : 0);
    if (told.size() > due) {
        throw Refusal{17, told[due].place};
    }
    if (told.size() < due) {
        throw Refusal{17, long(line.size()) + 1};
    }
    Ticket ticket{form.verb, {0, 0, 0}, Kind::Sum};
    for (size_t number = 0; number < form.numbers; number++) {
        ticket.numbers[number] = number_of(told[1 + number]);
    }
    if (form.has_kind) {
        ticket.kind = kind_of(told[due - 1]);
    }
    return ticket;
}

} // namespace

std::string name(Verb verb) {
    for (const Form &form : FORMS) {
        if (form.verb == verb) {
            return form.name;
        }
    }
    return "?";
}

std::variant<Refusal, Ticket> read_ticket(const std::string &line) {
    try {
        return ticket_of(line);
    } catch (const Refusal &refusal) {
        return refusal;
    }
}
