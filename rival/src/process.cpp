#include "process.h"
#include <algorithm>
#include <cerrno>
#include <chrono>
#include <csignal>
#include <fcntl.h>
#include <poll.h>
#include <spawn.h>
#include <stdexcept>
#include <sys/ioctl.h>
#include <sys/stat.h>
#include <sys/wait.h>
#include <thread>
#include <unistd.h>

namespace {

using Clock = std::chrono::steady_clock;
const auto PATIENCE = std::chrono::seconds(60);

void need(bool fine, const char *what) {
    if (!fine) {
        throw std::runtime_error(what);
    }
}

void write_all(int file, const std::string &bytes) {
    for (size_t done = 0; done < bytes.size();) {
        ssize_t wrote = write(file, bytes.data() + done, bytes.size() - done);
        need(wrote > 0, "a file can't be written");
        done += size_t(wrote);
    }
}

void write_file(const std::string &path, const std::string &bytes) {
    int file = open(path.c_str(), O_WRONLY | O_CREAT | O_TRUNC | O_CLOEXEC, 0644);
    need(file >= 0, "a file can't be made");
    write_all(file, bytes);
    close(file);
}

struct Pipe {
    int ends[2];
    Pipe() { need(pipe2(ends, O_CLOEXEC) == 0, "no pipe"); }
};

void take(int file, std::string &into, bool &open_still) {
    char buffer[65536];
    ssize_t got = read(file, buffer, sizeof buffer);
    if (got > 0) {
        into.append(buffer, size_t(got));
    } else if (got == 0 || (errno != EAGAIN && errno != EINTR)) {
        open_still = false;
    }
}

// Hands over the input piece by piece.
class Feeder {
public:
    Feeder(int file, const Given &given)
        : file(file), input(given.input), cuts(given.cuts), in_turn(given.in_turn) {
        cuts.push_back(input.size());
        fcntl(file, F_SETFL, O_NONBLOCK);
    }

    bool is_done() const { return file < 0; }

    void go_on(size_t printed) {
        int unread = 0;
        ioctl(file, FIONREAD, &unread);
        bool answered = !in_turn || printed > printed_before || at == 0 || at == input.size();
        if (at == cuts[piece] && (unread > 0 || !answered)) {
            return;
        }
        while (piece < cuts.size() && at >= cuts[piece]) {
            piece++;
            printed_before = printed;
        }
        if (piece == cuts.size()) {
            finish();
            return;
        }
        ssize_t wrote = write(file, input.data() + at, cuts[piece] - at);
        if (wrote > 0) {
            at += size_t(wrote);
        } else if (errno == EPIPE) {
            finish();
        }
    }

private:
    int file;
    const std::string &input;
    std::vector<size_t> cuts;
    bool in_turn;
    size_t printed_before = 0;
    size_t piece = 0;
    size_t at = 0;

    void finish() {
        close(file);
        file = -1;
    }
};

pid_t start(const std::string &program, const std::string &folder, const Given &given, int in, int out,
            int err) {
    posix_spawn_file_actions_t actions;
    posix_spawn_file_actions_init(&actions);
    posix_spawn_file_actions_adddup2(&actions, in, 0);
    posix_spawn_file_actions_adddup2(&actions, out, 1);
    posix_spawn_file_actions_adddup2(&actions, err, 2);
    posix_spawn_file_actions_addchdir_np(&actions, folder.c_str());
    std::string limited = "ulimit -v " + std::to_string(given.memory) + " && exec \"$0\"";
    std::vector<std::string> words = {program};
    if (given.memory > 0) {
        words = {"/bin/sh", "-c", limited, program};
    }
    std::vector<char *> arguments;
    for (std::string &word : words) {
        arguments.push_back(word.data());
    }
    arguments.push_back(nullptr);
    pid_t child = 0;
    int failed = posix_spawn(&child, arguments[0], &actions, nullptr, arguments.data(), environ);
    posix_spawn_file_actions_destroy(&actions);
    need(failed == 0, "the console can't be started");
    return child;
}

// Feeds the console and takes what it prints, until it has closed both outputs or patience ends.
void attend(Printed &printed, Feeder *feeder, int out, int err, pid_t child) {
    auto end = Clock::now() + PATIENCE;
    bool out_open = true, err_open = true;
    while (out_open || err_open) {
        bool feeding = feeder && !feeder->is_done();
        if (feeding) {
            feeder->go_on(printed.out.size());
        }
        pollfd files[2] = {{out_open ? out : -1, POLLIN, 0}, {err_open ? err : -1, POLLIN, 0}};
        timespec pause{feeding ? 0 : 1, feeding ? 20000 : 0};
        ppoll(files, 2, &pause, nullptr);
        if (files[0].revents) {
            take(out, printed.out, out_open);
        }
        if (files[1].revents) {
            take(err, printed.err, err_open);
        }
        if (Clock::now() > end) {
            kill(child, SIGKILL);
            printed.err += "(stopped: it took too long)";
            return;
        }
    }
}

int status_of(pid_t child) {
    int status = 0;
    while (waitpid(child, &status, 0) < 0 && errno == EINTR) {
    }
    return WIFEXITED(status) ? WEXITSTATUS(status) : 128 + WTERMSIG(status);
}

} // namespace

Console::Console(const std::string &program, const std::string &folder) : program(program), folder(folder) {
    mkdir(folder.c_str(), 0755);
}

void Console::lay_plan(const Given &given) {
    std::string path = folder + "/plan.bin";
    if (unlink(path.c_str()) != 0 && errno == EISDIR) {
        rmdir(path.c_str());
    }
    switch (given.plan_is) {
    case PlanIs::File: write_file(path, given.plan); break;
    case PlanIs::Missing: break;
    case PlanIs::Folder: need(mkdir(path.c_str(), 0755) == 0, "no folder"); break;
    case PlanIs::NamedPipe: need(mkfifo(path.c_str(), 0644) == 0, "no named pipe"); break;
    }
}

// Hands a plan over in parts, with a pause in between, to a console that opens it within ten seconds.
static void hand_over(const std::string &path, const std::string &plan) {
    int file = -1;
    for (int tries = 0; file < 0 && tries < 1000; tries++) {
        file = open(path.c_str(), O_WRONLY | O_NONBLOCK | O_CLOEXEC);
        std::this_thread::sleep_for(std::chrono::milliseconds(10));
    }
    if (file < 0) {
        return;
    }
    fcntl(file, F_SETFL, 0);
    size_t part = plan.size() / 3 + 1;
    for (size_t at = 0; at < plan.size(); at += part) {
        write_all(file, plan.substr(at, part));
        std::this_thread::sleep_for(std::chrono::milliseconds(20));
    }
    close(file);
}

// Starts the console, with its input from a file if it is not cut, and closes the ends of the pipes that are
// the console's.
static pid_t launch(const std::string &program, const std::string &folder, const Given &given, int in, int out,
                    int err) {
    int input = in, output = out;
    if (given.cuts.empty()) {
        std::string stored = folder + "/stdin";
        write_file(stored, given.input);
        input = open(given.input_is_folder ? folder.c_str() : stored.c_str(), O_RDONLY | O_CLOEXEC);
        need(input >= 0, "the input can't be opened");
    }
    if (given.output_is_full) {
        output = open("/dev/full", O_WRONLY | O_CLOEXEC);
        need(output >= 0, "no output that takes nothing");
    }
    pid_t child = start(program, folder, given, input, output, err);
    for (int file : {in, out, err}) {
        close(file);
    }
    if (input != in) {
        close(input);
    }
    if (output != out) {
        close(output);
    }
    return child;
}

// Feeds the console if its input is cut, and takes what it prints.
static void converse(Printed &printed, const Given &given, int in, int out, int err, pid_t child) {
    if (given.cuts.empty()) {
        close(in);
        attend(printed, nullptr, out, err, child);
        return;
    }
    Feeder feeder(in, given);
    attend(printed, &feeder, out, err, child);
    if (!feeder.is_done()) {
        close(in);
    }
}

Printed Console::run(const Given &given) {
    lay_plan(given);
    Pipe in, out, err;
    pid_t child = launch(program, folder, given, in.ends[0], out.ends[1], err.ends[1]);
    std::thread giver;
    if (given.plan_is == PlanIs::NamedPipe) {
        giver = std::thread(hand_over, folder + "/plan.bin", given.plan);
    }
    Printed printed;
    converse(printed, given, in.ends[1], out.ends[0], err.ends[0], child);
    close(out.ends[0]);
    close(err.ends[0]);
    printed.status = status_of(child);
    if (giver.joinable()) {
        giver.join();
    }
    return printed;
}
