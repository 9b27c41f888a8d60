// What is due in a case: by its own statement, by the model, or by both.
#include "cases.h"
#include "plan.h"

namespace {

// What the model says of a plan, in the words of a case's statement.
std::string by_model(const std::string &plan) {
    std::variant<Refusal, Network> read = read_plan(plan);
    const Refusal *refusal = std::get_if<Refusal>(&read);
    return refusal ? std::to_string(refusal->number) + " " + std::to_string(refusal->place) : "sound";
}

std::string ended(const Printed &printed) {
    return "status " + std::to_string(printed.status) + ", " + printed.err;
}

// Where reading or writing fails, the status is 1, nothing is replied, and a message says so.
std::optional<Fault> judge_failing(const Printed &printed) {
    bool right = printed.status == 1 && printed.out.empty() && !printed.err.empty();
    return right ? std::nullopt
                 : std::optional(
                       Fault{0, "", "status 1, a message, and no reply", ended(printed) + printed.out});
}

} // namespace

std::optional<Fault> judge_case(const Case &tried, const Printed &printed, Counts &counts) {
    if (tried.fails) {
        return judge_failing(printed);
    }
    if (tried.due_out) {
        bool right = printed.out == *tried.due_out && printed.status == 0;
        return right ? std::nullopt
                     : std::optional(Fault{0, "", *tried.due_out, printed.out + ended(printed)});
    }
    if (tried.due_of_plan && by_model(tried.given.plan) != *tried.due_of_plan) {
        return Fault{0, "", *tried.due_of_plan, by_model(tried.given.plan) + " by the model, which is wrong"};
    }
    return judge(tried.given, printed, counts);
}
