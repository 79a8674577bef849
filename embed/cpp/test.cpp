// SPDX-License-Identifier: Apache-2.0
// Tests yuglemit.hpp, with the folder of the examples as its word: ./dev loaded runs it, under valgrind if it is there. Prints each check that fails, and how many passed.
#include "yuglemit.hpp"
#include <chrono>
#include <fstream>
#include <iostream>
#include <iterator>
#include <thread>
#include <type_traits>

using namespace yuglemit;

namespace {

int passed = 0, failed = 0;

void check(bool is_right, const char *what, int line) {
    ++(is_right ? passed : failed);
    if (!is_right) std::cout << "test.cpp:" << line << ": " << what << "\n";
}

#define CHECK(is_right) check(is_right, #is_right, __LINE__)

// A program that gives its input back.
std::string same(const std::string &type) {
    return "proc control closed " + type + " write " + type + "\nregs " + type + "\nGET v0 d0\nDROPR d0\nSTORE d1 v0\nRET\n";
}

// A program that inserts a text by a text: the member is a text, and its subscript another.
const char *const MEMBER = "version 2\nproc control\nregs text\nNEW d0 d1 tcont text\nDROPR d1\nNEW d2 d3 text\nSTORE d2 v0\nTINS d0 v0 d3 there\nJMP done\n"
                           "there:\nDROPR d3\ndone:\nDROPW d0\nRET\n";

// Two tasks insert at two subscripts by copies of one right.
const char *const COMPETING = "proc control closed int closed int write cont int\nregs int int\nGET v0 d0\nGET v1 d1\nDROPR d0\nDROPR d1\nDUPW d3 d2\nPUT 1 0 any 2 0\nPUT 1 0 any 3 1\nRET\n"
                              "proc leaf write cont int val int\nregs int\nNEW d1 d2 int\nSTORE d1 v0\nINS d0 v0 d2 +1\nJMP +1\nDROPR d2\nDROPW d0\nRET\n";

const char *const ENDLESS = "proc control\nregs int int\nINT v1 1\nREPEAT 5\nREPEAT 1000\nADD v0 v0 v1 no\nno:\nEND\nEND\nPUT 0 0 any\nRET\n";

std::string examples;  // the folder

std::string read(const std::string &name) {
    std::ifstream file(examples + "/" + name);
    return {std::istreambuf_iterator<char>(file), {}};
}

// ---- Calls that don't throw

using Kind = Error::Kind;

template <class T> bool fails_as(const Result<T> &result, Kind kind) { return !result && result.error().kind == kind; }

void test_results() {
    auto text = Program::try_load(same("text"));
    CHECK(text && text->try_run({std::string("a")}) && !text->try_run({}));
    CHECK(*text->try_run({std::string("a\nb")})->try_output(0) == Value("a\nb"));
    CHECK(fails_as(text->try_run({std::string("\xff")}), Kind::argument) && fails_as(text->try_run({Value()}), Kind::argument));
    CHECK(text->try_run({}).error().code() == "O01" && text->try_run({}).error().input == 0);
    const auto unfit = text->try_run({7});
    CHECK(fails_as(unfit, Kind::rejected) && unfit.error().code() == "O02" && unfit.error().input == 1);
    CHECK(unfit.error().what() == std::string("refused O02 at input 1"));
    CHECK(fails_as(text->try_budget(1), Kind::index) && *text->try_budget(0) == 4 && *text->try_procedures() == 1);
    CHECK(fails_as(text->try_procedure(1), Kind::index) && text->try_procedure(0)->parameters.size() == 2);
    Options options;
    options.workers = 17;
    CHECK(fails_as(text->try_run({std::string()}, options), Kind::argument));
    options.workers = 1, options.limit = 0;
    CHECK(text->try_run({std::string()}, options).error().code() == "O04" && text->try_bounds(1000001).error().code() == "O04");
    auto other = text->try_share();
    { const auto gone = std::move(*text); }
    CHECK(fails_as(text->try_run({std::string()}), Kind::use) && fails_as(text->try_share(), Kind::use) && other->try_run({std::string()}));
}

void test_result_outputs() {
    auto program = Program::try_load(read("two_inputs.twn"));
    auto report = program->try_run({Ints{{1, 7}, {5, -3}}, -4});
    CHECK(report && report->end() == End::quiet && *report->try_is_closed(0));
    CHECK(*report->try_outputs() == std::vector<Value>{Ints({{-4, 2}, {2, -4}})});
    CHECK(*report->try_member(0, 2) == Value(-4) && *report->try_member(0, -4) == Value(2));
    CHECK(!*report->try_member(0, 0) && !*report->try_member(1, 2) && !*report->try_member(0, "2"));
    CHECK(fails_as(report->try_member(0, "\xff"), Kind::argument) && fails_as(report->try_output(1), Kind::index));
    CHECK(report->try_text()->find("quiet") != std::string::npos && report->try_trace() && report->try_json() && *report->try_instructions() > 0);
    CHECK(fails_as(program->try_run({Ints{{1, std::nullopt}}, -4}), Kind::argument));
    CHECK(program->try_run({Ints{{1, 7}}, "4"}).error().input == 2);
}

void test_result_stops() {
    auto endless = Program::try_load(ENDLESS);
    auto stop = Stop::try_make();
    auto other = stop->try_share();
    CHECK(stop && other && other->try_raise());
    auto report = endless->try_run({}, {}, *stop);
    CHECK(report->end() == End::stopped && report->events() == 0 && fails_as(report->try_json(), Kind::use));
    CHECK(report->try_meter()->events == 0 && report->try_meter()->tasks == 0 && report->try_meter()->instructions == 0);
    { const auto gone = std::move(*other); }
    CHECK(stop->try_lower() && !other->try_lower() && !other->try_raise() && fails_as(other->try_share(), Kind::use));
}

// Outputs of a run that didn't end by itself are read only if the caller asks for what is there.
void test_result_unfinished() {
    Options options;
    options.limit = 3;
    auto cut = Program::try_load(read("two_inputs.twn"))->try_run({Ints{{1, 7}, {5, -3}}, -4}, options);
    CHECK(cut->end() == End::limit && fails_as(cut->try_outputs(), Kind::unfinished) && fails_as(cut->try_output(0), Kind::unfinished));
    CHECK(fails_as(cut->try_member(0, 2), Kind::unfinished) && cut->try_outputs().error().raw == YUGLEMIT_UNFINISHED);
    CHECK(std::string(cut->try_outputs().error().what()).find("ended by its limit after 3 events") != std::string::npos);
    CHECK(*cut->try_partial() == std::vector<Value>{Ints()} && *cut->try_end() == End::limit);
    { const auto gone = std::move(*cut); }
    CHECK(fails_as(cut->try_end(), Kind::use) && fails_as(cut->try_partial(), Kind::use) && fails_as(cut->try_outputs(), Kind::use));
}

void test_result_errors() {
    const auto refused = Program::try_load("proc control write int\nregs int\nINT v0 7\nRET\n");
    CHECK(fails_as(refused, Kind::rejected) && refused.error().code() == "V10" && refused.error().line == 4);
    const auto meaning = try_explain(refused.error().code());
    CHECK(meaning && meaning->substr(0, 5) == "V10: ");
    CHECK(fails_as(try_explain("V99"), Kind::argument) && fails_as(try_explain(""), Kind::argument) && !try_explain("--help"));
    CHECK(try_session({"explain", "V10"}, "")->status == 0 && *try_procedure_name(read("pipeline.twn"), 0) == "main");
    CHECK(try_verify("TWB")->letter == 'F');
}

#ifdef __cpp_exceptions
// ---- Calls that throw

template <class Failure, class Call> void check_throws(Call call, const char *what, int line) {
    try {
        call();
        check(false, what, line);
    } catch (const Failure &) {
        check(true, what, line);
    }
}

#define CHECK_THROWS(failure, call) check_throws<failure>([&] { call; }, #call, __LINE__)

// A program that copies its members to its output.
std::string copied(const std::string &by, const std::string &of) {
    const bool is_named = by == "text";
    const std::string type = (is_named ? "tcont " : "cont ") + of;
    return std::string(is_named ? "version 2\n" : "") + "proc control closed " + type + " write int\nregs int\nSIZE v0 d0\nDROPR d0\nSTORE d1 v0\nRET\n";
}

void test_values() {
    auto number = Program::load(same("int"));
    for (std::int64_t it : {INT64_MIN, std::int64_t{-1}, std::int64_t{0}, INT64_MAX}) CHECK(number.run({it}).output(0) == Value(it));
    auto text = Program::load(same("text"));
    for (const std::string &it : {std::string(), std::string("a\nb"), std::string("a\0b\r", 4), std::string(4096, 'x')}) CHECK(text.run({it}).output(0) == Value(it));
    CHECK_THROWS(std::invalid_argument, text.run({std::string("\xff")}));
    CHECK_THROWS(std::invalid_argument, text.run({Value()}));
    CHECK_THROWS(Error, text.run({7}));
    CHECK_THROWS(Error, text.run({}));
}

void test_containers() {
    const Value two(std::int64_t{2});
    CHECK(Program::load(copied("int", "int")).run({Ints{{5, -3}, {1, 7}}}).output(0) == two);
    CHECK(Program::load(copied("int", "text")).run({Texts{{5, "\n"}, {1, ""}}}).output(0) == two);
    CHECK(Program::load(copied("text", "int")).run({IntsByText{{"\xc3\xa9", 1}, {"", 2}}}).output(0) == two);
    CHECK(Program::load(copied("text", "text")).run({TextsByText{{"b", "1"}, {"a", "2"}}}).output(0) == two);
    CHECK_THROWS(std::invalid_argument, Program::load(copied("int", "int")).run({Ints{{1, std::nullopt}}}));
    CHECK_THROWS(Error, Program::load(copied("int", "int")).run({IntsByText{}}));
}

// Outputs of one run are inputs of another.
void test_output_containers() {
    auto report = Program::load(read("two_inputs.twn")).run({Ints{{1, 7}, {5, -3}}, -4});
    CHECK(report.end() == End::quiet && report.is_closed(0));
    CHECK(report.outputs() == std::vector<Value>{Ints({{-4, 2}, {2, -4}})});
    CHECK(report.member(0, 2) == Value(-4) && report.member(0, -4) == Value(2));
    CHECK(!report.member(0, 0) && !report.member(1, 2) && !report.member(0, "2"));
    CHECK(Program::load(read("two_inputs.twn")).run({report.output(0), 1}).end() == End::quiet);
    auto words = Program::load(read("words.twn")).run({Texts{{1, "the"}, {2, "a\"\n"}, {3, "the"}}});
    CHECK(words.outputs() == std::vector<Value>{IntsByText({{"the", 2}, {"a\"\n", 1}})});
    CHECK(words.member(0, "the") == Value(2) && words.member(0, "a\"\n") == Value(1) && !words.member(0, "") && !words.member(0, 1));
}

// A map is a container of values; its parameter says the type of its subscripts.
void test_maps() {
    auto program = Program::load("version 4\nproc control closed map int write tmap sum\nregs text int int\nTEXT v0 \"all\"\nINT v1 1\nMGET v2 d0 v1 +1\nMADD d1 v0 v2\n"
                                 "DROPR d0\nDROPW d1\nRET\n");
    const auto main = program.procedure(0);
    CHECK(main.parameters[0].depth == 0 && main.parameters[0].scalar == 'i' && main.parameters[0].by == 0 && main.parameters[0].map == 'i');
    CHECK(main.parameters[1].depth == 0 && main.parameters[1].scalar == 's' && main.parameters[1].by == 0 && main.parameters[1].map == 't');
    auto report = program.run({Container<std::int64_t, std::int64_t>{{1, 7}, {5, -3}}});
    const Container<std::string, std::int64_t> wanted = {{"all", 7}};
    CHECK(report.output(0) == Value(wanted) && report.member(0, "all") == Value(std::int64_t{7}) && !report.member(0, "none"));
    CHECK(report.meter().data == 2 && report.meter().members == 1 && report.meter().bytes == 3);
}

// A run that is stuck leaves an output unset and one open, which aren't its answer.
void test_open_outputs() {
    auto report = Program::load("proc control write int write cont int\nregs\nNEW d2 d3 int\nRULE 1 0 any 3 2 0 1\nRET\n\n"
                                "proc leaf closed int write int write int write cont int\nregs int\nDROPR d0\nSTORE d1 v0\nSTORE d2 v0\nDROPW d3\nRET\n").run();
    CHECK(report.end() == End::stuck && report.output_count() == 2);
    CHECK(report.partial() == std::vector<Value>({Value(), Ints()}));
    CHECK_THROWS(Error, report.outputs());
    CHECK_THROWS(Error, report.output(1));
    CHECK(!report.is_closed(0) && !report.is_closed(1));
}

void test_programs() {
    auto program = Program::load(same("int"));
    CHECK(program.procedures() == 1 && program.budget(0) == 4);
    CHECK_THROWS(std::out_of_range, program.budget(1));
    auto other = program.share();
    { auto gone = std::move(program); }
    CHECK_THROWS(std::logic_error, program.run({7}));
    CHECK(other.run({7}).output(0) == Value(std::int64_t{7}));
    CHECK_THROWS(std::out_of_range, other.run({7}).output(1));
    Options options;
    options.workers = 17;
    CHECK_THROWS(std::invalid_argument, other.run({7}, options));
    options.workers = 16, options.limit = 0;
    CHECK_THROWS(Error, other.run({7}, options));
}

// What is printed of a report, without another run, and what is known of a program before it runs.
void test_printed() {
    auto program = Program::load(read("pipeline.twn"));
    Options options;
    options.engines = options.workers = 2;
    auto report = program.run({std::int64_t{39}}, options);
    CHECK(report.text() == "out 0 int 42\nquiet\n" && report.instructions() == 24);
    CHECK(report.meter().events == report.events() && report.meter().tasks == 4 && report.meter().instructions == 24);
    CHECK(report.meter().data == 4 && report.meter().members == 0 && report.meter().bytes == 0);
    CHECK(report.trace().substr(0, 7) == "events\n" && report.json().find("\"outputs\":[42]") != std::string::npos);
    Stop stop;
    stop.raise();
    CHECK_THROWS(std::logic_error, program.run({std::int64_t{39}}, options, stop).json());
    const auto main = program.procedure(0);
    CHECK(main.kind == 'c' && main.parameters.size() == 2);
    CHECK(main.parameters[1].mode == 'w' && main.parameters[1].depth == 0 && main.parameters[1].scalar == 'i' && main.parameters[1].by == 0);
    CHECK_THROWS(std::out_of_range, program.procedure(program.procedures()));
    CHECK(procedure_name(read("pipeline.twn"), 0) == "main" && procedure_name(read("pipeline.tw"), 0).empty());
}

// pipeline.twn has 4 tasks, 24 instructions, 2 data, 3 rules and 37 events, budgets of 6, and neither members nor texts (docs/FORMAT.md). With a limit
// of three events no kind has more than three, and there are at most 18 instructions. MEMBER has a member, and 12,288 bytes: two texts of data, and one in a register; an event counts as a text.
void test_bounds() {
    auto program = Program::load(read("pipeline.twn"));
    const auto all = program.bounds(), few = program.bounds(3);
    CHECK(all.tasks == 4 && all.instructions == 24 && all.data == 2 && all.members == 0 && all.rules == 3 && all.bytes == 0 && all.events == 37);
    CHECK(few.tasks == 3 && few.instructions == 18 && few.data == 2 && few.members == 0 && few.rules == 3 && few.bytes == 0 && few.events == 3);
    auto member = Program::load(MEMBER);
    CHECK(member.bounds().members == 1 && member.bounds().bytes == 12288 && member.bounds(1).members == 1 && member.bounds(1).bytes == 4096);
    CHECK_THROWS(Error, program.bounds(1000001));
    auto endless = Program::load(ENDLESS);
    CHECK(endless.bounds().tasks == YUGLEMIT_NO_BOUND && endless.bounds().bytes == YUGLEMIT_NO_BOUND);
    CHECK(endless.bounds(5).tasks == 5 && endless.bounds(5).members == 0 && endless.bounds(5).bytes == 0);
}

// docs/FORMAT.md has both answers of the check.
void test_order() {
    const auto same = Program::load(read("pipeline.twn")).order(), by_copies = Program::load(read("fan_out.twn")).order();
    CHECK(same.may_show == 0 && same.procedure == 0 && same.place == 0);
    CHECK(by_copies.may_show == 1 && by_copies.procedure == 1 && by_copies.place == 3);
}

// Two tasks insert at the two subscripts by copies of one right: they compete if the subscripts are one, at the INS of procedure 1. A run of three
// events is cut off before.
void test_run_order() {
    const auto program = Program::load(COMPETING);
    Options options;
    CHECK_THROWS(std::logic_error, program.run({std::int64_t{1}, std::int64_t{2}}, options).order());
    options.order = true;
    const auto apart = program.run({std::int64_t{1}, std::int64_t{2}}, options).order(), at_one = program.run({std::int64_t{1}, std::int64_t{1}}, options).order();
    CHECK(apart.may_show == 0 && apart.procedure == 0 && apart.place == 0);
    CHECK(at_one.may_show == 1 && at_one.procedure == 1 && at_one.place == 2);
    options.limit = 3;
    CHECK(program.run({std::int64_t{1}, std::int64_t{1}}, options).order().may_show == 2);
}

bool is_above(const Options &options) {
    try {
        Program::load(read("pipeline.twn")).run({std::int64_t{39}}, options);
        return false;
    } catch (const Error &error) {
        return error.code() == "O07" && error.what() == std::string("refused O07");
    }
}

void test_caps() {
    Options options;
    options.caps = {4, 24, 2, 0, 6, 0, 3};
    CHECK(!is_above(options));
    for (auto cap : {&Caps::tasks, &Caps::instructions, &Caps::data, &Caps::budget, &Caps::rules}) {
        Options smaller = options;
        --*(smaller.caps.*cap);
        CHECK(is_above(smaller));
        smaller.caps.*cap = std::nullopt;
        CHECK(!is_above(smaller));
    }
    options.caps.tasks = 3, options.limit = 3;
    CHECK(!is_above(options));
    Options texts;
    texts.caps.bytes = 12288;
    CHECK(Program::load(MEMBER).run({}, texts).end() == End::quiet);
    texts.caps.bytes = 12287;
    CHECK_THROWS(Error, Program::load(MEMBER).run({}, texts));
    Options members;
    members.caps.members = 1;
    CHECK(Program::load(MEMBER).run({}, members).end() == End::quiet);
    members.caps.members = 0;
    CHECK_THROWS(Error, Program::load(MEMBER).run({}, members));
}

void test_sessions() {
    const auto reply = session({"run", "--text", "text:a\nb\n"}, same("text"));
    CHECK(reply.status == 0 && reply.text == "out 0 text \"a\\nb\\n\"\nquiet\n");
    CHECK(session({}, "").status == 2 && session({""}, "").status == 2);
    CHECK(session({"run", "--text", "text:" + std::string(4097, 'a')}, same("text")).status == 1);
}

void test_errors() {
    try {
        Program::load("proc control write int\nregs int\nINT v0 7\nRET\n");
        CHECK(false);
    } catch (const Error &error) {
        CHECK(error.code() == "V10" && error.procedure == 0 && error.place == 1 && error.line == 4);
        CHECK(error.what() == std::string("refused V10 in procedure 0 at place 1 at line 4"));
    }
    try {
        Program::load("proc control\nregs int\nADD v0 v0 1 +0\nRET\n");
        CHECK(false);
    } catch (const Error &error) {
        CHECK(error.code() == "A02" && error.line == 3 && error.word == 4 && error.column == 11);
    }
    try {
        Program::load("names\nproc control main()\nregs n: int\nINT totl 7\nRET\n");
        CHECK(false);
    } catch (const Error &error) {
        CHECK(error.code() == "N04" && error.line == 4 && error.word == 2 && error.column == 5);
    }
    CHECK(explain("V10").substr(0, 5) == "V10: ");
    CHECK_THROWS(std::invalid_argument, explain("V99"));
    CHECK_THROWS(Error, Program::load(""));
    CHECK_THROWS(Error, Program::load("TWB", YUGLEMIT_BYTES));
}

void test_stops() {
    auto endless = Program::load(ENDLESS);
    Options options;
    options.limit = 20;
    CHECK(endless.run({}, options).end() == End::limit && endless.run({}, options).events() == 20);
    CHECK(Program::load("proc control\nregs\nPUT 0 0 any\nRET\n").run({}).events() == 1000000);
    Stop stop;
    auto other = stop.share();
    options.limit = 1000000;
    std::thread thread([&] { other.raise(); });
    const auto report = endless.run({}, options, stop);
    thread.join();
    CHECK(report.end() == End::stopped && report.events() < 1000000);
    CHECK(endless.run({}, options, stop).events() == 0);
    other.lower();
    options.limit = 20;
    auto cut = endless.run({}, options, stop);
    CHECK(cut.end() == End::limit);
    { const auto gone = std::move(cut); }
    CHECK_THROWS(std::logic_error, cut.end());
    CHECK_THROWS(std::logic_error, cut.events());
    CHECK_THROWS(std::logic_error, cut.output_count());
    CHECK_THROWS(std::logic_error, cut.partial());
}

// A stop within a task: its instructions are counted, up to one of the looks for the flag.
void test_cut_off() {
    auto program = Program::load("proc control\nregs int int\nINT v1 1\nREPEAT 1000\nREPEAT 1000\nREPEAT 300\nADD v0 v0 v1 no\nno:\nEND\nEND\nEND\nRET\n");
    for (int wait = 10; wait < 20000; wait *= 2) {
        Stop stop;
        auto other = stop.share();
        std::thread thread([&] {
            std::this_thread::sleep_for(std::chrono::milliseconds(wait));
            other.raise();
        });
        const auto report = program.run({}, {}, stop);
        thread.join();
        const auto meter = report.meter();
        if (report.end() != End::stopped || !meter.instructions) continue;
        CHECK(meter.tasks == 1 && meter.instructions > 61438 && meter.instructions <= program.bounds().instructions && report.instructions() == meter.instructions);
        return;
    }
    CHECK(false);
}

void test_throwing() {
    test_values();
    test_containers();
    test_output_containers();
    test_maps();
    test_open_outputs();
    test_programs();
    test_printed();
    test_bounds();
    test_order();
    test_run_order();
    test_caps();
    test_sessions();
    test_errors();
    test_stops();
    test_cut_off();
}
#else
void test_throwing() {}
#endif

static_assert(!std::is_copy_constructible_v<Program> && std::is_nothrow_move_constructible_v<Program>);
static_assert(!std::is_copy_constructible_v<Report> && std::is_nothrow_move_constructible_v<Report>);
static_assert(!std::is_copy_constructible_v<Stop> && std::is_nothrow_move_constructible_v<Stop>);

}  // namespace

int main(int count, char **word) {
    if (count != 2) return 2;
    examples = word[1];
    test_results();
    test_result_outputs();
    test_result_stops();
    test_result_unfinished();
    test_result_errors();
    test_throwing();
    std::cout << "C++: " << passed << " passed, " << failed << " failed\n";
    return failed != 0;
}
