#include "replies.h"

namespace {

[[noreturn]] void refuse(int number) { throw Refusal{number, 0}; }

void need_circuit(int circuit) {
    if (circuit >= CIRCUITS) {
        refuse(21);
    }
}

void need_lit(const Book &book, int circuit, bool lit) {
    need_circuit(circuit);
    if (book.is_lit(circuit) != lit) {
        refuse(23);
    }
}

void need_nodes(const Book &book, int from, int to) {
    if (from >= book.network().nodes || to >= book.network().nodes) {
        refuse(24);
    }
    if (from == to) {
        refuse(25);
    }
}

void need_span(const Book &book, int span) {
    if (span >= int(book.network().spans.size())) {
        refuse(26);
    }
}

Cost need_path(const Book &book, Kind kind, int from, int to, int without) {
    std::optional<Cost> least = least_cost(book, kind, from, to, without);
    if (!least) {
        refuse(29);
    }
    return *least;
}

Order order_of(const Book &book, const Ticket &ticket) {
    auto [circuit, from, to] = ticket.numbers;
    need_lit(book, circuit, false);
    need_nodes(book, from, to);
    return {circuit, from, to, ticket.kind, need_path(book, ticket.kind, from, to, NO_SPAN)};
}

std::string fee(Kind kind, Cost cost) { return "FEE " + text(kind, cost) + "\n"; }

void light(Book &book, const Ticket &ticket, Reply &reply) {
    reply.lit = order_of(book, ticket);
    reply.text =
        "LIT " + std::to_string(reply.lit->circuit) + " " + text(ticket.kind, reply.lit->cost) + "\n";
}

std::string quote(Book &book, const Ticket &ticket) { return fee(ticket.kind, order_of(book, ticket).cost); }

std::string trial(Book &book, const Ticket &ticket) {
    auto [from, to, span] = ticket.numbers;
    need_nodes(book, from, to);
    need_span(book, span);
    return fee(ticket.kind, need_path(book, ticket.kind, from, to, span));
}

std::string dark(Book &book, int circuit) {
    need_lit(book, circuit, true);
    return "DARK " + std::to_string(circuit) + " " + std::to_string(book.darken(circuit)) + "\n";
}

std::string shut(Book &book, int span) {
    need_span(book, span);
    book.shut(span);
    return "SHUT " + std::to_string(span) + "\n";
}

void serve(Book &book, const Ticket &ticket, Reply &reply) {
    switch (ticket.verb) {
    case Verb::Light: light(book, ticket, reply); break;
    case Verb::Quote: reply.text = quote(book, ticket); break;
    case Verb::Trial: reply.text = trial(book, ticket); break;
    case Verb::Dark: reply.text = dark(book, ticket.numbers[0]); break;
    case Verb::Shut: reply.text = shut(book, ticket.numbers[0]); break;
    case Verb::Slip:
        need_lit(book, ticket.numbers[0], true);
        reply.text = slip(book.network(), ticket.numbers[0], book.path(ticket.numbers[0]));
        break;
    }
}

Reply refused(Refusal refusal, std::optional<Verb> verb) {
    std::string text = "NO " + std::to_string(refusal.number) + " " + std::to_string(refusal.place) + "\n";
    return {text, refusal.number, verb, {}};
}

std::string port(const Network &network, Step step) {
    return std::to_string(step.span) + " " + label(network, step.channel);
}

} // namespace

Reply reply_to(Book &book, const std::string &line) {
    std::variant<Refusal, Ticket> read = read_ticket(line);
    if (const Refusal *refusal = std::get_if<Refusal>(&read)) {
        return refused(*refusal, {});
    }
    const Ticket &ticket = std::get<Ticket>(read);
    Reply reply;
    reply.verb = ticket.verb;
    try {
        serve(book, ticket, reply);
    } catch (const Refusal &refusal) {
        return refused(refusal, ticket.verb);
    }
    return reply;
}

std::string slip(const Network &network, int circuit, const Path &path) {
    std::string told = "SLIP " + std::to_string(circuit) + " " + std::to_string(path.size() + 1) + "\n";
    std::string input = "- -";
    for (Step step : path) {
        int node = network.spans[size_t(step.span)].tail;
        told += std::to_string(node) + " " + input + " " + port(network, step) + "\n";
        input = port(network, step);
    }
    int last = network.spans[size_t(path.back().span)].head;
    return told + std::to_string(last) + " " + input + " - -\n";
}
