// Records the calls that threads make of a flow, for `judge`. Copy this file into your project (C++17).
//
// Each caller has a buffer of its own. All callers raise one counter before and after each call.
//
//     recorder::Recording recording;
//     recorder::Caller &caller = recording.caller("t1");
//     caller.begin("set", {{"value", 3}});
//     flow.store(3);
//     caller.end(recorder::done);
//     recording.write(R"({"kind": "state", "initial": 0})", std::cout);
#pragma once

#include <atomic>
#include <cstdint>
#include <deque>
#include <mutex>
#include <optional>
#include <ostream>
#include <stdexcept>
#include <string>
#include <utility>
#include <vector>

namespace recorder {

// An answer, as JSON.
struct Answer {
    std::string json;
};

inline const Answer done{"\"done\""};
inline const Answer cancelled{"\"cancelled\""};
inline const Answer empty{"\"empty\""};

inline Answer boolean(bool answer) { return {answer ? "true" : "false"}; }
inline Answer count(std::uint64_t count) { return {std::to_string(count)}; }
inline Answer value(std::uint64_t value) { return {"{\"value\": " + std::to_string(value) + "}"}; }

inline Answer update(std::uint64_t old, std::uint64_t value) {
    return {"{\"old\": " + std::to_string(old) + ", \"value\": " + std::to_string(value) + "}"};
}

inline Answer values(const std::vector<std::uint64_t> &values) {
    std::string json;
    for (std::uint64_t value : values) json += (json.empty() ? "" : ", ") + std::to_string(value);
    return {"[" + json + "]"};
}

// The numbers of a call, by their keys.
using Numbers = std::vector<std::pair<const char *, std::uint64_t>>;

using Clock = std::atomic<std::uint64_t>;

// A caller makes one call at a time, and has at most one subscription.
class Caller {
  public:
    Caller(Clock &clock, std::string name) : clock_(clock), name_(std::move(name)) {}

    // Begins a call. It is pending until `end`; a caller whose call never ends makes no other.
    void begin(const char *name, Numbers numbers = {}) {
        std::lock_guard guard(lock_);
        if (!calls_.empty() && !calls_.back().ended) throw std::logic_error("the last call has not ended");
        calls_.push_back({name, std::move(numbers), ++clock_, std::nullopt});
    }

    // Ends the call that was begun.
    void end(Answer answer) {
        std::uint64_t end = ++clock_;
        std::lock_guard guard(lock_);
        calls_.back().ended = {end, std::move(answer)};
    }

    // Leaves out the call that was begun, since it changed nothing.
    void leave_out() {
        std::lock_guard guard(lock_);
        calls_.pop_back();
    }

    // Writes the calls that began before the moment `cut`, as they were then.
    void write(std::uint64_t cut, std::ostream &out) {
        std::lock_guard guard(lock_);
        for (const Call &call : calls_) {
            if (call.begin > cut) break;
            out << "{\"by\": \"" << name_ << "\", \"call\": \"" << call.name << '"';
            for (const auto &[key, number] : call.numbers) out << ", \"" << key << "\": " << number;
            out << ", \"begin\": " << call.begin;
            if (call.ended && call.ended->first < cut) {
                out << ", \"end\": " << call.ended->first << ", \"answer\": " << call.ended->second.json;
            }
            out << "}\n";
        }
    }

  private:
    struct Call {
        const char *name;
        Numbers numbers;
        std::uint64_t begin;
        // Nothing while the call is pending.
        std::optional<std::pair<std::uint64_t, Answer>> ended;
    };

    Clock &clock_;
    std::string name_;
    std::mutex lock_;
    std::deque<Call> calls_;
};

class Recording {
  public:
    Caller &caller(std::string name) {
        std::lock_guard guard(lock_);
        return callers_.emplace_back(clock_, std::move(name));
    }

    // Writes the flow and the calls up to now. Those that have not ended are pending, and their callers may still wait.
    void write(const char *flow, std::ostream &out) {
        std::uint64_t cut = ++clock_;
        out << "{\"flow\": " << flow << "}\n";
        std::lock_guard guard(lock_);
        for (Caller &caller : callers_) caller.write(cut, out);
        out.flush();
    }

  private:
    Clock clock_{0};
    std::mutex lock_;
    // A deque never moves its elements.
    std::deque<Caller> callers_;
};

}  // namespace recorder
