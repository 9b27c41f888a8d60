// Starts the console in a folder of its own, hands it a plan and its input, and takes what it prints.
#pragma once
#include <string>
#include <vector>

enum class PlanIs { File, Missing, Folder, NamedPipe };

struct Given {
    PlanIs plan_is = PlanIs::File;
    std::string plan;
    std::string input;
    // Where the input is cut: each piece is handed over when all before it has been read. With no cuts
    // it comes from a file.
    std::vector<size_t> cuts;
    // Whether each piece has also to wait until something was printed since the piece before.
    bool in_turn = false;
    // Whether the input is a folder, which can't be read, and whether the output takes no byte.
    bool input_is_folder = false;
    bool output_is_full = false;
    // How much memory the console may map, in KiB; 0 leaves it open.
    long memory = 0;
};

struct Printed {
    std::string out;
    std::string err;
    int status = -1;
};

class Console {
public:
    Console(const std::string &program, const std::string &folder);
    Printed run(const Given &given);

private:
    std::string program;
    std::string folder;

    void lay_plan(const Given &given);
};
