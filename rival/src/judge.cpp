#include "judge.h"
#include "plan.h"
#include "replies.h"
#include <algorithm>
#include <sstream>

namespace {

// The circuit that a line would light if the book allows it.
std::optional<int> lights(const std::string &line) {
    std::variant<Refusal, Ticket> read = read_ticket(line);
    const Ticket *ticket = std::get_if<Ticket>(&read);
    bool may = ticket && ticket->verb == Verb::Light && ticket->numbers[0] < CIRCUITS;
    return may ? std::optional(ticket->numbers[0]) : std::nullopt;
}

// Takes the printed text line by line.
class Reading {
public:
    explicit Reading(const std::string &text) : text(text) {}

    bool at_end() const { return at == text.size(); }

    // The next line, with its end; what is left where there is none.
    std::string line() {
        size_t end = text.find('\n', at);
        std::string found = text.substr(at, end == std::string::npos ? end : end + 1 - at);
        at += found.size();
        return found;
    }

    // So many of the next lines.
    std::string lines(long count) {
        std::string found;
        for (; count > 0; count--) {
            found += line();
        }
        return found;
    }

    std::string rest() const { return text.substr(at); }

private:
    const std::string &text;
    size_t at = 0;
};

// The step that a setting's line tells to leave by.
std::optional<Step> step_told(const Network &network, const std::string &setting) {
    std::istringstream words(setting);
    std::string node, in_span, in_label, span, told;
    words >> node >> in_span >> in_label >> span >> told;
    bool is_number =
        !span.empty() && span.size() <= 3 && span.find_first_not_of("0123456789") == std::string::npos;
    if (!is_number || std::stoul(span) >= network.spans.size()) {
        return {};
    }
    for (int channel = 0; channel < network.channels; channel++) {
        if (label(network, channel) == told) {
            return Step{std::stoi(span), channel};
        }
    }
    return {};
}

class Judge {
public:
    Judge(const Network &network, const std::string &out, Counts &counts)
        : book(network), reading(out), counts(counts) {}

    std::optional<Fault> judge(const std::vector<std::string> &lines) {
        for (const std::string &line : lines) {
            number++;
            std::optional<Fault> fault = lit ? judge_first_slip(line) : judge_line(line);
            if (fault) {
                return fault;
            }
        }
        if (!reading.at_end()) {
            return Fault{0, "", "no more", reading.rest()};
        }
        return {};
    }

private:
    Book book;
    Reading reading;
    Counts &counts;
    long number = 0;
    long standing = 0;
    // What the line before lit, its path still unknown.
    std::optional<Order> lit;

    Fault fault(const std::string &line, const std::string &due, const std::string &got) const {
        return {number, line, due, got};
    }

    std::optional<Fault> judge_line(const std::string &line) {
        Reply reply = reply_to(book, line);
        std::string got = reading.lines(std::count(reply.text.begin(), reply.text.end(), '\n'));
        if (got != reply.text) {
            return fault(line, reply.text, got);
        }
        count(reply);
        lit = reply.lit;
        return {};
    }

    void count(const Reply &reply) {
        std::string sort = reply.verb ? name(*reply.verb) : "no ticket";
        counts.lines++;
        if (reply.refusal != 0) {
            counts.refused[{reply.refusal, sort}]++;
            return;
        }
        counts.accepted[sort]++;
        standing -= reply.verb == Verb::Dark ? 1 : 0;
    }

    // The slip right after a circuit was lit: its path is read from it, judged, and then adopted.
    std::optional<Fault> judge_first_slip(const std::string &line) {
        Order order = *lit;
        lit.reset();
        if (line != "SLIP " + std::to_string(order.circuit)) {
            return fault(line, "a slip ticket: the case is made wrongly", "");
        }
        std::string told = reading.line();
        std::string head = "SLIP " + std::to_string(order.circuit) + " ";
        if (told.compare(0, head.size(), head) != 0) {
            return fault(line, head + "..", told);
        }
        long settings = std::atol(told.c_str() + head.size());
        return judge_settings(line, order, told, settings);
    }

    std::optional<Fault> judge_settings(const std::string &line, const Order &order, std::string told,
                                        long settings) {
        Path path;
        for (long setting = 1; setting <= settings; setting++) {
            std::string next = reading.line();
            told += next;
            std::optional<Step> step = step_told(book.network(), next);
            if (!step && setting != settings) {
                return fault(line, "a setting with an output", told);
            }
            if (setting != settings) {
                path.push_back(*step);
            }
        }
        std::string wrong = fault_of_path(book, order.from, order.to, path);
        if (!wrong.empty()) {
            return fault(line, "a semilightpath, but " + wrong, told);
        }
        std::string cost = text(order.kind, cost_of(book, order.kind, path));
        if (cost != text(order.kind, order.cost)) {
            return fault(line, "a path at " + text(order.kind, order.cost) + ", and not at " + cost, told);
        }
        std::string due = slip(book.network(), order.circuit, path);
        if (told != due) {
            return fault(line, due, told);
        }
        adopt(order, path);
        return {};
    }

    void adopt(const Order &order, const Path &path) {
        book.light(order.circuit, path);
        counts.lines++;
        counts.accepted["SLIP"]++;
        counts.paths++;
        counts.longest_path = std::max(counts.longest_path, long(path.size()));
        counts.most_lit = std::max(counts.most_lit, ++standing);
    }
};

std::optional<Fault> judge_out(const Given &given, const std::string &out, Counts &counts) {
    std::variant<Refusal, Network> read = read_plan(given.plan_is == PlanIs::Missing ? "" : given.plan);
    if (const Refusal *refusal = std::get_if<Refusal>(&read)) {
        std::string due =
            "PLAN " + std::to_string(refusal->number) + " " + std::to_string(refusal->place) + "\n";
        if (out != due) {
            return Fault{0, "", due, out};
        }
        counts.refused[{refusal->number, "plan"}]++;
        return {};
    }
    counts.accepted["plan"]++;
    return Judge(std::get<Network>(read), out, counts).judge(lines_of(given.input));
}

} // namespace

void Counts::add(const Counts &other) {
    for (const auto &[key, times] : other.refused) {
        refused[key] += times;
    }
    for (const auto &[key, times] : other.accepted) {
        accepted[key] += times;
    }
    lines += other.lines;
    paths += other.paths;
    longest_path = std::max(longest_path, other.longest_path);
    most_lit = std::max(most_lit, other.most_lit);
}

std::vector<std::string> lines_of(const std::string &input) {
    std::vector<std::string> lines;
    for (size_t at = 0; at < input.size();) {
        size_t end = std::min(input.find('\n', at), input.size());
        lines.push_back(input.substr(at, end - at));
        at = end + 1;
    }
    return lines;
}

std::string with_slips(const std::string &input) {
    std::vector<std::string> lines = lines_of(input);
    std::string whole;
    for (size_t at = 0; at < lines.size(); at++) {
        bool last = at + 1 == lines.size();
        whole += lines[at];
        std::optional<int> circuit = lights(lines[at]);
        std::string ticket = "SLIP " + std::to_string(circuit.value_or(0));
        if (circuit && (last || lines[at + 1] != ticket)) {
            whole += "\n" + ticket;
        }
        if (!last || input.back() == '\n') {
            whole += "\n";
        }
    }
    return whole;
}

std::optional<Fault> judge(const Given &given, const Printed &printed, Counts &counts) {
    std::optional<Fault> fault = judge_out(given, printed.out, counts);
    if (printed.status != 0 || !printed.err.empty()) {
        fault = fault.value_or(Fault{0, "", "status 0 and no message", ""});
        fault->got += " (status " + std::to_string(printed.status) + ", " + printed.err + ")";
    }
    return fault;
}
