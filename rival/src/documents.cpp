// The examples that the documents work through, as cases: the console must print what they say.
#include "cases.h"
#include "draft.h"
#include "judge.h"
#include "ticket.h"
#include <fstream>
#include <regex>
#include <stdexcept>

namespace {

// The rows of the tables in a page's part of worked examples, each as its cells.
std::vector<std::vector<std::string>> rows_of(const std::string &page) {
    std::ifstream file(page);
    std::vector<std::vector<std::string>> rows;
    std::string line;
    bool inside = false;
    while (std::getline(file, line)) {
        inside = inside || line.rfind("## Worked example", 0) == 0;
        if (!inside || line.rfind("| ", 0) != 0) {
            continue;
        }
        std::vector<std::string> cells;
        for (size_t at = 1; at < line.size();) {
            size_t end = line.find('|', at);
            cells.push_back(line.substr(at, end - at));
            at = end == std::string::npos ? line.size() : end + 1;
        }
        rows.push_back(cells);
    }
    return rows;
}

// What stands between backticks in a cell.
std::vector<std::string> quoted(const std::string &cell) {
    std::vector<std::string> found;
    for (size_t at = cell.find('`'); at != std::string::npos; at = cell.find('`', at + 1)) {
        size_t end = cell.find('`', at + 1);
        found.push_back(cell.substr(at + 1, end - at - 1));
        at = end;
    }
    return found;
}

Case documented(const std::string &name, const std::string &input, const std::string &out) {
    Case tried{"documents: " + name, {}};
    tried.given.plan = sample().written();
    tried.given.input = input;
    tried.due_out = out;
    return tried;
}

// The lines of docs/tickets.md: what is refused is replied to so, and all else is a ticket.
Case ticket_page(const std::string &docs) {
    std::string input, out;
    for (const std::vector<std::string> &row : rows_of(docs + "/tickets.md")) {
        std::smatch found;
        bool refused = std::regex_search(row[1], found, std::regex("^ (\\d+) at (\\d+)"));
        for (const std::string &line : quoted(row[0])) {
            if (refused) {
                input += line + "\n";
                out += "NO " + found[1].str() + " " + found[2].str() + "\n";
            } else if (std::holds_alternative<Refusal>(read_ticket(line))) {
                throw std::runtime_error("the model refuses a ticket of the documents: " + line);
            }
        }
    }
    return documented("docs/tickets.md", input, out);
}

// The day of docs/console.md.
Case console_page(const std::string &docs) {
    std::string input, out;
    for (const std::vector<std::string> &row : rows_of(docs + "/console.md")) {
        bool empty = row[0] == " (empty) ";
        for (const std::string &line : quoted(row[0])) {
            input += line + "\n";
        }
        input += empty ? "\n" : "";
        for (const std::string &reply : quoted(row[1])) {
            out += reply + "\n";
        }
    }
    return documented("docs/console.md", input, out);
}

} // namespace

std::vector<Case> documented_cases(const std::string &docs) {
    std::vector<Case> cases;
    for (const Case &stated : {ticket_page(docs), console_page(docs)}) {
        if (lines_of(stated.given.input).size() < 20) {
            throw std::runtime_error("the documents' examples are not where they were: " + stated.name);
        }
        Case judged = stated;
        judged.name += ", judged";
        judged.given.input = with_slips(stated.given.input);
        judged.due_out.reset();
        cases.push_back(stated);
        cases.push_back(judged);
    }
    return cases;
}
