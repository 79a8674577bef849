// SPDX-License-Identifier: Apache-2.0
// Without words: loads a program, runs it, stops it, and prints an error. With words: as the command tw.
#include "yuglemit.hpp"
#include <iostream>
#include <iterator>
#include <thread>

namespace {

int session(const std::vector<std::string> &words) {
    auto reply = yuglemit::session(words, "");
    // If tw reads an input, an empty one is refused by status 1 or gives an empty text.
    if (reply.status == 1 || reply.text.empty()) reply = yuglemit::session(words, std::string{std::istreambuf_iterator<char>(std::cin), {}});
    std::cout << reply.text;
    return reply.status;
}

void run() {
    auto double_it = yuglemit::Program::load("proc control closed int write int\nregs int int\nGET v0 d0\nDROPR d0\nADD v0 v0 v0 more\nmore:\nSTORE d1 v0\nRET\n");
    for (std::int64_t number : {4, 21}) std::cout << std::get<std::int64_t>(double_it.run({number}).output(0)) << "\n";
}

void stop() {
    auto endless = yuglemit::Program::load("proc control\nregs int int\nINT v1 1\nREPEAT 5\nREPEAT 1000\nADD v0 v0 v1 no\nno:\nEND\nEND\nPUT 0 0 any\nRET\n");
    yuglemit::Stop stop;
    std::thread other([shared = stop.share()]() mutable { shared.raise(); });
    yuglemit::Options options;
    options.limit = 1000000;
    const auto report = endless.run({}, options, stop);
    other.join();
    std::cout << (report.end() == yuglemit::End::stopped ? "stopped\n" : "not stopped\n");
}

void refuse() {
    try {
        yuglemit::Program::load("proc control write int\nregs int\nINT v0 7\nRET\n");
    } catch (const yuglemit::Error &error) {
        std::cout << error.what() << "\n";
    }
}

}  // namespace

int main(int count, char **word) {
    if (count > 1) return session({word + 1, word + count});
    run();
    stop();
    refuse();
}
