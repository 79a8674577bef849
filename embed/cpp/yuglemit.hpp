// SPDX-License-Identifier: Apache-2.0
// Yuglemit for C++17, over yuglemit.h: programs that are loaded once and run many times. Each handle has an owner that frees it.
//
//     auto program = yuglemit::Program::load(text);                  // throws yuglemit::Error if it isn't accepted
//     auto report = program.run({yuglemit::Ints{{1, 7}, {5, -3}}, -4});
//     report.end(); report.outputs();
//
// All of these calls throw: Error for a program or inputs that are rejected, and for outputs of a run that didn't end quiet; std::bad_alloc if memory runs out, std::invalid_argument and
// std::out_of_range for arguments, std::logic_error for a call on an object that was moved from. For each there is one that doesn't throw, whose name
// begins with try_. It returns a Result: the value, or an Error whose kind says what failed. With -fno-exceptions there are only these:
//
//     auto program = yuglemit::Program::try_load(text);
//     if (!program) return program.error().what();
//     auto report = program->try_run({7});
//
// Any number of threads may read a Program, a Report or a Stop at once: its calls are const. Program::share and Stop::share make another object
// of the same.
#ifndef YUGLEMIT_HPP
#define YUGLEMIT_HPP
#include "yuglemit.h"
#include <cstdint>
#include <cstdlib>
#include <map>
#include <new>
#include <optional>
#include <stdexcept>
#include <string>
#include <string_view>
#include <type_traits>
#include <utility>
#include <variant>
#include <vector>

namespace yuglemit {

// A container: its members by subscript. A member of a report may be unset; one of an input may not.
template <class By, class Scalar> using Container = std::map<By, std::optional<Scalar>>;
using Ints = Container<std::int64_t, std::int64_t>;
using Texts = Container<std::int64_t, std::string>;
using IntsByText = Container<std::string, std::int64_t>;
using TextsByText = Container<std::string, std::string>;

// An input or an output. An output that is unset is std::monostate.
using Value = std::variant<std::monostate, std::int64_t, std::string, Ints, Texts, IntsByText, TextsByText>;

// Says why a call failed: a program isn't accepted, a run can't begin, or an Error::Kind that the calls that throw report by a type of std. Positions
// are as in yuglemit_verdict; 0 where there is none.
class Error : public std::runtime_error {
public:
    enum class Kind {
        rejected,  // Error: the program, or the inputs and the options of a run; it has a letter and a number
        memory,    // std::bad_alloc
        argument,  // std::invalid_argument
        index,     // std::out_of_range
        use,       // std::logic_error
        unfinished // Error: the outputs of a run that didn't end by itself, quiet; Report::partial has what is there
    };

    explicit Error(const yuglemit_verdict &verdict)
        : std::runtime_error(message(verdict)), raw(YUGLEMIT_REJECTED), letter(static_cast<char>(verdict.letter)), number(static_cast<int>(verdict.number)),
          procedure(verdict.procedure), place(verdict.place), line(verdict.line), word(verdict.word), column(verdict.column) {}

    // A run that can't begin, by the number of its O: 1 to 4 or 7.
    explicit Error(int run_number, std::size_t input_number = 0)
        : std::runtime_error("refused " + code_of('O', run_number) + (input_number ? " at input " + std::to_string(input_number) : "")),
          raw(static_cast<yuglemit_code>(YUGLEMIT_INPUT_COUNT - 1 + run_number)), letter('O'), number(run_number), input(input_number) {}

    Error(Kind failed, yuglemit_code code, const std::string &message) : std::runtime_error("yuglemit: " + message), kind(failed), raw(code) {}

    // As explain takes it, as V04; only of an error that is rejected.
    std::string code() const { return code_of(letter, number); }

    Kind kind = Kind::rejected;
    yuglemit_code raw;  // what the library returned; YUGLEMIT_DONE if it is an error of this header's own
    char letter = 0;
    int number = 0;
    std::size_t procedure = 0, place = 0, line = 0, word = 0, column = 0;
    std::size_t input = 0;  // O02: which input doesn't fit main, from 1

private:
    static std::string code_of(char letter, int number) { return letter + std::string(number < 10 ? "0" : "") + std::to_string(number); }

    static std::string message(const yuglemit_verdict &it) {
        std::string text = "refused " + code_of(static_cast<char>(it.letter), static_cast<int>(it.number));
        if (it.letter == 'F') text += " at byte " + std::to_string(it.place);
        if (it.letter == 'V') text += " in procedure " + std::to_string(it.procedure) + " at place " + std::to_string(it.place);
        return it.line ? text + " at line " + std::to_string(it.line) : text;
    }
};

// The result of a call that doesn't throw: a value, or the error. A Result that has no value has an error: using the other one ends the program by
// std::abort, with exceptions and without. value_if() and error_if() are null pointers then.
template <class T> class [[nodiscard]] Result {
public:
    // Inlined, it makes GCC 12 warn of texts that a Value doesn't hold.
    [[gnu::noinline]] Result(T &&value) : it_(std::in_place_index<0>, std::move(value)) {}
    Result(Error error) : it_(std::in_place_index<1>, std::move(error)) {}

    explicit operator bool() const { return it_.index() == 0; }
    T *value_if() { return std::get_if<0>(&it_); }
    const T *value_if() const { return std::get_if<0>(&it_); }
    const Error *error_if() const { return std::get_if<1>(&it_); }
    T &operator*() { return *checked(value_if()); }
    const T &operator*() const { return *checked(value_if()); }
    T *operator->() { return checked(value_if()); }
    const T *operator->() const { return checked(value_if()); }
    const Error &error() const { return *checked(error_if()); }

private:
    template <class Part> static Part *checked(Part *part) {
        if (!part) std::abort();
        return part;
    }

    std::variant<T, Error> it_;
};

namespace detail {

// Owns a handle; it can be moved, and not copied.
template <class Raw, void (*free_handle)(Raw)> class Handle {
public:
    Handle() = default;
    Handle(Handle &&other) noexcept : raw_(std::exchange(other.raw_, Raw{nullptr})) {}
    Handle &operator=(Handle &&other) noexcept {
        std::swap(raw_, other.raw_);
        return *this;
    }
    ~Handle() { free_handle(raw_); }
    Raw *get() { return &raw_; }
    const Raw *get() const { return &raw_; }

private:
    Raw raw_ = {nullptr};
};

using ProgramHandle = Handle<yuglemit_program, yuglemit_program_free>;
using InputsHandle = Handle<yuglemit_inputs, yuglemit_inputs_free>;
using StopHandle = Handle<yuglemit_stop, yuglemit_stop_free>;
using ReportHandle = Handle<yuglemit_report, yuglemit_report_free>;
using TextHandle = Handle<yuglemit_text, yuglemit_text_free>;

using Code = std::uint8_t;   // of a call, a yuglemit_code
constexpr Code UNSET = 255;  // no call returns it: an input is unset

// Returns the error of a call, which failed.
inline Error error_of(Code code) {
    using Kind = Error::Kind;
    if (code == UNSET) return {Kind::argument, YUGLEMIT_DONE, "an input or a member of one is unset"};
    const auto raw = static_cast<yuglemit_code>(code);
    const std::string words = yuglemit_code_text(code);
    switch (raw) {
    case YUGLEMIT_INPUT_COUNT:
    case YUGLEMIT_INPUT_TYPE:
    case YUGLEMIT_NO_ACTOR:
    case YUGLEMIT_NO_LIMIT:
    case YUGLEMIT_ABOVE_CAP: return Error(code - (YUGLEMIT_INPUT_COUNT - 1));
    case YUGLEMIT_NO_MEMORY: return {Kind::memory, raw, words};
    case YUGLEMIT_NO_LAYOUT:
    case YUGLEMIT_NO_LIST:
    case YUGLEMIT_NO_UTF8: return {Kind::argument, raw, words};
    case YUGLEMIT_NO_INDEX: return {Kind::index, raw, words};
    case YUGLEMIT_UNFINISHED: return {Kind::unfinished, raw, words};
    default: return {Kind::use, raw, words};
    }
}

#ifdef __cpp_exceptions
[[noreturn]] inline void raise(const Error &error) {
    switch (error.kind) {
    case Error::Kind::memory: throw std::bad_alloc();
    case Error::Kind::argument: throw std::invalid_argument(error.what());
    case Error::Kind::index: throw std::out_of_range(error.what());
    case Error::Kind::use: throw std::logic_error(error.what());
    default: throw error;
    }
}

template <class T> T value_of(Result<T> result) {
    if (!result) raise(result.error());
    return std::move(*result);
}
#endif

// Returns what a call writes.
template <class T, class Call> Result<T> written(Call call, T found = T{}) {
    const Code code = call(&found);
    if (code) return error_of(code);
    return found;
}

// The library takes no null pointer, also if the length is 0.
inline const std::uint8_t *bytes_of(std::string_view text) {
    return reinterpret_cast<const std::uint8_t *>(text.empty() ? "" : text.data());
}

// Integers as the library takes them; and texts, one after the other in one buffer, with the place at which each ends.
using Numbers = std::vector<std::int64_t>;
struct Joined {
    std::string bytes;
    std::vector<std::uint64_t> ends;
};
inline void put(Numbers &all, std::int64_t number) { all.push_back(number); }
inline void put(Joined &all, const std::string &text) {
    all.bytes += text;
    all.ends.push_back(all.bytes.size());
}
template <class Scalar> using Column = std::conditional_t<std::is_same_v<Scalar, std::string>, Joined, Numbers>;

inline Code add(yuglemit_inputs *to, const Numbers &by, const Numbers &all) { return yuglemit_input_ints(to, by.data(), all.data(), all.size()); }
inline Code add(yuglemit_inputs *to, const Numbers &by, const Joined &all) {
    return yuglemit_input_texts(to, by.data(), bytes_of(all.bytes), all.bytes.size(), all.ends.data(), all.ends.size());
}
inline Code add(yuglemit_inputs *to, const Joined &by, const Numbers &all) {
    return yuglemit_input_ints_by_text(to, bytes_of(by.bytes), by.bytes.size(), by.ends.data(), all.data(), all.size());
}
inline Code add(yuglemit_inputs *to, const Joined &by, const Joined &all) {
    return yuglemit_input_texts_by_text(to, bytes_of(by.bytes), by.bytes.size(), by.ends.data(), bytes_of(all.bytes), all.bytes.size(), all.ends.data(),
                                        all.ends.size());
}

// Appends a value to the inputs of a run.
struct Append {
    InputsHandle &inputs;

    Code operator()(std::monostate) const { return UNSET; }
    Code operator()(std::int64_t number) const { return yuglemit_input_int(inputs.get(), number); }
    Code operator()(const std::string &text) const { return yuglemit_input_text(inputs.get(), bytes_of(text), text.size()); }
    template <class By, class Scalar> Code operator()(const Container<By, Scalar> &members) const {
        Column<By> by;
        Column<Scalar> all;
        for (const auto &[subscript, value] : members) {
            if (!value) return UNSET;
            put(by, subscript);
            put(all, *value);
        }
        return add(inputs.get(), by, all);
    }
};

// Makes a text of this length, which a call writes.
template <class Call> Code write_text(std::string &text, std::size_t length, Call call) {
    text.assign(length ? length : 1, '\0');
    const Code code = call(reinterpret_cast<std::uint8_t *>(text.data()), length);
    text.resize(length);
    return code;
}

// Returns the text of a handle.
inline Result<std::string> kept_text(TextHandle &kept) {
    std::size_t length = 0;
    std::string text;
    Code code = yuglemit_text_length(kept.get(), &length);
    if (!code) code = write_text(text, length, [&](auto room, auto size) { return yuglemit_text_copy(kept.get(), room, size); });
    if (code) return error_of(code);
    return text;
}

// Returns the text that a call puts into a handle.
template <class Call> Result<std::string> made_text(Call call) {
    TextHandle made;
    const Code code = call(made.get());
    if (code) return error_of(code);
    return kept_text(made);
}

}  // namespace detail

// Stops runs: give it to Program::run, and raise one that shares its flag in another thread.
class Stop {
public:
    static Result<Stop> try_make() {
        Stop made{detail::StopHandle()};
        const auto code = yuglemit_stop_new(made.handle_.get());
        if (code) return detail::error_of(code);
        return made;
    }
    Result<Stop> try_share() const {
        Stop other{detail::StopHandle()};
        const auto code = yuglemit_stop_share(handle_.get(), other.handle_.get());
        if (code) return detail::error_of(code);
        return other;
    }

    // Return false if the object was moved from.
    bool try_raise() const { return yuglemit_stop_raise(handle_.get()) == YUGLEMIT_DONE; }
    bool try_lower() const { return yuglemit_stop_lower(handle_.get()) == YUGLEMIT_DONE; }

#ifdef __cpp_exceptions
    Stop() : Stop(detail::value_of(try_make())) {}
    Stop share() const { return detail::value_of(try_share()); }
    void raise() const {
        if (!try_raise()) detail::raise(detail::error_of(YUGLEMIT_NO_STOP));
    }
    void lower() const {
        if (!try_lower()) detail::raise(detail::error_of(YUGLEMIT_NO_STOP));
    }
#endif

private:
    friend class Program;
    explicit Stop(detail::StopHandle handle) : handle_(std::move(handle)) {}
    detail::StopHandle handle_;
};

enum class End { quiet = 0, stuck = 3, limit = 4, stopped = 8 };

// The report of a run.
class Report {
public:
    Result<End> try_end() const {
        if (!handle_.get()->at) return detail::error_of(YUGLEMIT_NO_REPORT);
        return static_cast<End>(ending_.status);
    }
    End end() const { return static_cast<End>(ending().status); }
    std::size_t events() const { return static_cast<std::size_t>(ending().events); }
    std::size_t output_count() const { return static_cast<std::size_t>(ending().outputs); }

    // How much the run did, and what its store held at the end, also if it was stopped.
    Result<yuglemit_meter> try_meter() const {
        return detail::written<yuglemit_meter>([&](auto at) { return yuglemit_report_meter(handle_.get(), at); }, YUGLEMIT_METER);
    }

    // Whether the order of events may show in the run's outputs; Kind::use if its options didn't ask for that.
    Result<yuglemit_order> try_order() const {
        return detail::written<yuglemit_order>([&](auto at) { return yuglemit_report_order(handle_.get(), at); }, YUGLEMIT_ORDER);
    }

    // How many instructions the run executed; the greatest number if they were more.
    Result<std::uint64_t> try_instructions() const {
        return detail::written<std::uint64_t>([&](auto at) { return yuglemit_report_instructions(handle_.get(), at); });
    }

    // The report as `tw run` prints that of a program's bytes, the events as `tw run --trace` does, and the line of `tw run --json`, which a run
    // that was stopped hasn't (Kind::use). The run isn't made again. The report of a run that was stopped ends with `running`.
    Result<std::string> try_text() const {
        return detail::made_text([&](auto text) { return yuglemit_print_report(handle_.get(), text); });
    }
    Result<std::string> try_trace() const {
        return detail::made_text([&](auto text) { return yuglemit_print_trace(handle_.get(), text); });
    }
    Result<std::string> try_json() const {
        return detail::made_text([&](auto text) { return yuglemit_print_json(handle_.get(), text); });
    }

    // Returns whether an output never changes again.
    Result<bool> try_is_closed(std::size_t output) const {
        yuglemit_item found{};
        const auto code = yuglemit_report_output(handle_.get(), output, &found);
        if (code) return detail::error_of(code);
        return found.closed != 0;
    }

    // The outputs are the program's answer if the run ended by itself, quiet: else these are Kind::unfinished.
    Result<Value> try_output(std::size_t output) const {
        if (!is_quiet()) return unfinished();
        return detail::written<Value>([&](Value *value) { return read_output(output, *value); });
    }
    Result<std::vector<Value>> try_outputs() const {
        if (!is_quiet()) return unfinished();
        return try_partial();
    }

    // Returns the outputs as they are, however the run ended.
    Result<std::vector<Value>> try_partial() const {
        if (!handle_.get()->at) return detail::error_of(YUGLEMIT_NO_REPORT);
        std::vector<Value> values(ending_.outputs);
        for (std::size_t output = 0; output < values.size(); output++)
            if (const auto code = read_output(output, values[output])) return detail::error_of(code);
        return values;
    }

    // Returns the member of an output with this subscript, without reading the others; std::monostate if it is unset, std::nullopt if there is none.
    Result<std::optional<Value>> try_member(std::size_t output, std::int64_t subscript) const {
        return member_at(output, [&](auto place) { return yuglemit_report_find_int(handle_.get(), output, subscript, place); });
    }
    Result<std::optional<Value>> try_member(std::size_t output, std::string_view subscript) const {
        const auto bytes = detail::bytes_of(subscript);
        return member_at(output, [&](auto place) { return yuglemit_report_find_text(handle_.get(), output, bytes, subscript.size(), place); });
    }

#ifdef __cpp_exceptions
    yuglemit_meter meter() const { return detail::value_of(try_meter()); }
    yuglemit_order order() const { return detail::value_of(try_order()); }
    std::uint64_t instructions() const { return detail::value_of(try_instructions()); }
    std::string text() const { return detail::value_of(try_text()); }
    std::string trace() const { return detail::value_of(try_trace()); }
    std::string json() const { return detail::value_of(try_json()); }
    bool is_closed(std::size_t output) const { return detail::value_of(try_is_closed(output)); }
    Value output(std::size_t output) const { return detail::value_of(try_output(output)); }
    std::vector<Value> outputs() const { return detail::value_of(try_outputs()); }
    std::vector<Value> partial() const { return detail::value_of(try_partial()); }
    std::optional<Value> member(std::size_t output, std::int64_t subscript) const { return detail::value_of(try_member(output, subscript)); }
    std::optional<Value> member(std::size_t output, std::string_view subscript) const { return detail::value_of(try_member(output, subscript)); }
#endif

private:
    friend class Program;
    Report(detail::ReportHandle handle, const yuglemit_ending &ending) : handle_(std::move(handle)), ending_(ending) {}

    bool is_quiet() const { return ending_.status == YUGLEMIT_STATUS_QUIET; }

    Error unfinished() const {
        if (!handle_.get()->at) return detail::error_of(YUGLEMIT_NO_REPORT);
        const char *const end = ending_.status == YUGLEMIT_STATUS_STUCK ? "is stuck" : ending_.status == YUGLEMIT_STATUS_LIMIT ? "ended by its limit" : "was stopped";
        return {Error::Kind::unfinished, YUGLEMIT_UNFINISHED,
                std::string("the run ") + end + " after " + std::to_string(ending_.events) + " events, so its outputs aren't the program's answer; partial() has them"};
    }

    const yuglemit_ending &ending() const {
#ifdef __cpp_exceptions
        if (!handle_.get()->at) detail::raise(detail::error_of(YUGLEMIT_NO_REPORT));
#endif
        return ending_;
    }

    detail::Code read(std::size_t, std::size_t, const yuglemit_item &found, bool, std::int64_t &number) const {
        number = found.number;
        return YUGLEMIT_DONE;
    }
    detail::Code read(std::size_t output, std::size_t place, const yuglemit_item &found, bool is_subscript, std::string &text) const {
        const auto call = is_subscript ? yuglemit_report_subscript_text : yuglemit_report_member_text;
        return detail::write_text(text, found.length, [&](auto room, auto size) { return call(handle_.get(), output, place, room, size); });
    }

    detail::Code read_text(std::size_t output, const yuglemit_item &found, Value &value) const {
        std::string text;
        const auto code = detail::write_text(text, found.length, [&](auto room, auto size) { return yuglemit_report_text(handle_.get(), output, room, size); });
        value = std::move(text);
        return code;
    }

    detail::Code read_output(std::size_t output, Value &value) const {
        yuglemit_item found{};
        const auto code = yuglemit_report_output(handle_.get(), output, &found);
        if (code) return code;
        switch (found.kind) {
        case YUGLEMIT_KIND_INT: value = found.number; return YUGLEMIT_DONE;
        case YUGLEMIT_KIND_TEXT: return read_text(output, found, value);
        case YUGLEMIT_KIND_CONTAINER:
        case YUGLEMIT_KIND_MAP:
            return found.by == 't' ? read_by<std::string>(output, found, value) : read_by<std::int64_t>(output, found, value);
        default: value = std::monostate(); return YUGLEMIT_DONE;
        }
    }

    template <class By> detail::Code read_by(std::size_t output, const yuglemit_item &found, Value &value) const {
        return found.scalar == 't' ? read_members<By, std::string>(output, found, value) : read_members<By, std::int64_t>(output, found, value);
    }

    // Reads all members in one call, and then the texts.
    template <class By, class Scalar> detail::Code read_members(std::size_t output, const yuglemit_item &found, Value &value) const {
        Container<By, Scalar> all;
        std::vector<yuglemit_member> members(found.length ? found.length : 1);
        auto code = yuglemit_report_members(handle_.get(), output, 0, members.data(), found.length);
        for (std::size_t place = 0; !code && place < found.length; place++) code = read_member(output, place, members[place], all);
        value = std::move(all);
        return code;
    }

    template <class By, class Scalar>
    detail::Code read_member(std::size_t output, std::size_t place, const yuglemit_member &member, Container<By, Scalar> &all) const {
        By subscript{};
        Scalar value{};
        auto code = read(output, place, member.subscript, true, subscript);
        const bool is_set = member.value.kind != YUGLEMIT_KIND_UNSET && member.value.kind != YUGLEMIT_KIND_NONE;
        if (!code && is_set) code = read(output, place, member.value, false, value);
        if (!code) all.emplace_hint(all.end(), std::move(subscript), is_set ? std::optional<Scalar>(std::move(value)) : std::nullopt);
        return code;
    }

    template <class Find> Result<std::optional<Value>> member_at(std::size_t output, Find find) const {
        if (!is_quiet()) return unfinished();
        std::size_t place = 0;
        yuglemit_member found{};
        auto code = find(&place);
        if (code == YUGLEMIT_NO_INDEX) return std::optional<Value>();
        if (!code) code = yuglemit_report_member(handle_.get(), output, place, &found);
        std::string text;
        if (!code && found.value.kind == YUGLEMIT_KIND_TEXT) code = read(output, place, found.value, false, text);
        if (code) return detail::error_of(code);
        if (found.value.kind == YUGLEMIT_KIND_TEXT) return std::optional<Value>(std::move(text));
        return found.value.kind == YUGLEMIT_KIND_INT ? std::optional<Value>(found.value.number) : std::optional<Value>(std::monostate());
    }

    detail::ReportHandle handle_;
    yuglemit_ending ending_;
};

// The most that a run may do; std::nullopt is no cap.
struct Caps {
    std::optional<std::uint64_t> tasks, instructions, data, bytes, budget, members, rules;  // as in yuglemit_caps
};

struct Options {
    std::size_t limit = 1000000;  // the most events, 1 to 1,000,000
    std::uint8_t engines = 1, servers = 1, workers = 1;
    std::uint64_t seed = 0;  // decides the order of the turns; 0: the actors take turns
    Caps caps;  // a program with a bound above one isn't run: an Error O07
    bool order = false;  // Report::order has the run's order; it takes a replay
};

// A program that is verified.
class Program {
public:
    static constexpr std::uint64_t MOST_BYTES = 16777216;

    // Loads a program from its bytes, hex text or assembly text. A source of more bytes than these is rejected, H02.
    static Result<Program> try_load(std::string_view source, std::uint8_t format = YUGLEMIT_ANY_FORMAT, std::uint64_t most_bytes = MOST_BYTES) {
        Program program;
        yuglemit_verdict verdict = YUGLEMIT_VERDICT;
        yuglemit_load_options options = YUGLEMIT_LOAD_OPTIONS;
        options.most_bytes = most_bytes;
        const auto code = yuglemit_load_with(detail::bytes_of(source), source.size(), format, &options, program.handle_.get(), &verdict);
        if (code == YUGLEMIT_REJECTED) return Error(verdict);
        if (code) return detail::error_of(code);
        program.engines_ = static_cast<int>(verdict.engines);
        program.workers_ = static_cast<int>(verdict.workers);
        return program;
    }

    // Makes another object of the same program.
    Result<Program> try_share() const {
        Program other;
        const auto code = yuglemit_program_share(handle_.get(), other.handle_.get());
        if (code) return detail::error_of(code);
        other.engines_ = engines_;
        other.workers_ = workers_;
        return other;
    }

    // How many engines and workers its targets need.
    int needed_engines() const { return engines_; }
    int needed_workers() const { return workers_; }

    Result<std::size_t> try_procedures() const {
        return detail::written<std::size_t>([&](auto at) { return yuglemit_program_procedures(handle_.get(), at); });
    }

    // A procedure: 'c' control or 'l' leaf, and its parameters as in yuglemit_parameter.
    struct Procedure {
        char kind;
        std::vector<yuglemit_parameter> parameters;
    };

    Result<Procedure> try_procedure(std::size_t number) const {
        yuglemit_procedure found = YUGLEMIT_PROCEDURE;
        auto code = yuglemit_program_procedure(handle_.get(), number, &found);
        const yuglemit_parameter none = YUGLEMIT_PARAMETER;
        Procedure procedure{static_cast<char>(found.kind), std::vector<yuglemit_parameter>(static_cast<std::size_t>(found.parameters), none)};
        for (std::size_t index = 0; !code && index < procedure.parameters.size(); index++)
            code = yuglemit_program_parameter(handle_.get(), number, index, &procedure.parameters[index]);
        if (code) return detail::error_of(code);
        return procedure;
    }

    // The most instructions that one task of a procedure executes.
    Result<std::uint64_t> try_budget(std::size_t procedure) const {
        return detail::written<std::uint64_t>([&](auto at) { return yuglemit_program_budget(handle_.get(), procedure, at); });
    }

    // The bounds of runs with at most so many events, or of all runs if the limit is 0.
    Result<yuglemit_bounds> try_bounds(std::size_t limit = 0) const {
        const yuglemit_bounds none = YUGLEMIT_BOUNDS;
        return detail::written([&](auto at) { return yuglemit_program_bounds(handle_.get(), limit, at); }, none);
    }

    // Whether the order of events may show in outputs.
    Result<yuglemit_order> try_order() const {
        const yuglemit_order none = YUGLEMIT_ORDER;
        return detail::written([&](auto at) { return yuglemit_program_order(handle_.get(), at); }, none);
    }

    // Runs the program in this thread, its actors in turn.
    Result<Report> try_run(const std::vector<Value> &values = {}, const Options &options = {}) const {
        detail::StopHandle none;
        return run_until(values, options, none);
    }

    // Runs the program until its end, or until `stop` is raised.
    Result<Report> try_run(const std::vector<Value> &values, const Options &options, const Stop &stop) const { return run_until(values, options, stop.handle_); }

#ifdef __cpp_exceptions
    static Program load(std::string_view source, std::uint8_t format = YUGLEMIT_ANY_FORMAT, std::uint64_t most_bytes = MOST_BYTES) {
        return detail::value_of(try_load(source, format, most_bytes));
    }
    Program share() const { return detail::value_of(try_share()); }
    std::size_t procedures() const { return detail::value_of(try_procedures()); }
    Procedure procedure(std::size_t number) const { return detail::value_of(try_procedure(number)); }
    std::uint64_t budget(std::size_t procedure) const { return detail::value_of(try_budget(procedure)); }
    yuglemit_bounds bounds(std::size_t limit = 0) const { return detail::value_of(try_bounds(limit)); }
    yuglemit_order order() const { return detail::value_of(try_order()); }
    Report run(const std::vector<Value> &values = {}, const Options &options = {}) const { return detail::value_of(try_run(values, options)); }
    Report run(const std::vector<Value> &values, const Options &options, const Stop &stop) const {
        return detail::value_of(try_run(values, options, stop));
    }
#endif

private:
    Program() = default;

    Result<Report> run_until(const std::vector<Value> &values, const Options &options, const detail::StopHandle &stop) const {
        detail::InputsHandle inputs;
        for (const auto &value : values)
            if (const auto code = std::visit(detail::Append{inputs}, value)) return detail::error_of(code);
        detail::ReportHandle report;
        const auto code = run_into(report, inputs, options, stop);
        std::size_t index = 0;
        if (code == YUGLEMIT_INPUT_TYPE && yuglemit_unfit_input(handle_.get(), inputs.get(), &index) == YUGLEMIT_DONE) return Error(2, index + 1);
        if (code) return detail::error_of(code);
        return read(std::move(report));
    }

    detail::Code run_into(detail::ReportHandle &report, const detail::InputsHandle &inputs, const Options &options, const detail::StopHandle &stop) const {
        const yuglemit_options raw = {sizeof(yuglemit_options), options.limit, options.engines, options.servers, options.workers, options.seed, options.order, 1};
        const auto cap = [](const std::optional<std::uint64_t> &most) { return most.value_or(UINT64_MAX); };
        const auto &[tasks, instructions, data, bytes, budget, members, rules] = options.caps;
        const yuglemit_caps caps = {sizeof(yuglemit_caps), cap(tasks), cap(instructions), cap(data), cap(bytes), cap(budget), cap(members), cap(rules)};
        return yuglemit_run_within(handle_.get(), inputs.get(), &raw, &caps, stop.get(), report.get());
    }

    static Result<Report> read(detail::ReportHandle report) {
        yuglemit_ending ending = YUGLEMIT_ENDING;
        auto code = yuglemit_report_ending(report.get(), &ending);
        if (!code && ending.status == YUGLEMIT_STATUS_MEMORY) code = YUGLEMIT_NO_MEMORY;
        if (code) return detail::error_of(code);
        return Report(std::move(report), ending);
    }

    detail::ProgramHandle handle_;
    int engines_ = 0, workers_ = 0;
};

// A session of the command tw.
struct Reply {
    int status;
    std::string text;
};

// Returns what the command tw writes with these arguments, if it reads this input. An argument with a NUL is two.
inline Result<Reply> try_session(const std::vector<std::string> &words, std::string_view input) {
    std::string ended;
    for (const auto &word : words) ended += word + '\0';
    detail::TextHandle output;
    const int status = yuglemit_session_text(detail::bytes_of(ended), ended.size(), detail::bytes_of(input), input.size(), output.get());
    if (status == YUGLEMIT_STATUS_MEMORY) return detail::error_of(YUGLEMIT_NO_MEMORY);
    auto text = detail::kept_text(output);
    if (!text) return text.error();
    return Reply{status, std::move(*text)};
}

// Returns the explanation of a code, as V04: what it means, what is required, the usual mistake and its correction.
inline Result<std::string> try_explain(const std::string &code) {
    auto reply = try_session({"explain", code}, "");
    if (!reply) return reply.error();
    if (code.empty() || code[0] == '-' || reply->status != YUGLEMIT_STATUS_QUIET) return Error(Error::Kind::argument, YUGLEMIT_DONE, "there is no such code");
    return std::move(reply->text);
}

// Returns the name that an assembly text gives the procedure of this number; it is empty if the text gives none.
inline Result<std::string> try_procedure_name(std::string_view source, std::size_t procedure) {
    return detail::made_text([&](auto name) { return yuglemit_source_name(detail::bytes_of(source), source.size(), procedure, name); });
}

// Returns what the verifier says of a program's bytes.
inline Result<yuglemit_verdict> try_verify(std::string_view bytes) {
    yuglemit_verdict verdict = YUGLEMIT_VERDICT;
    const auto code = yuglemit_verify(detail::bytes_of(bytes), bytes.size(), &verdict);
    if (code && code != YUGLEMIT_REJECTED) return detail::error_of(code);
    return verdict;
}

#ifdef __cpp_exceptions
inline Reply session(const std::vector<std::string> &words, std::string_view input) { return detail::value_of(try_session(words, input)); }
inline std::string explain(const std::string &code) { return detail::value_of(try_explain(code)); }
inline std::string procedure_name(std::string_view source, std::size_t procedure) { return detail::value_of(try_procedure_name(source, procedure)); }
inline yuglemit_verdict verify(std::string_view bytes) { return detail::value_of(try_verify(bytes)); }
#endif

}  // namespace yuglemit
#endif
