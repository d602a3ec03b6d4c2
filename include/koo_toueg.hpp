// Nodes for C++17, and one log of what they tell: the calls of koo_toueg.h by values and exceptions. This is a header alone; a program
// links the same library. What koo_toueg.h says of the calls holds here: above all what of a step has to be durable before its
// parcels go out.
#ifndef KOO_TOUEG_HPP
#define KOO_TOUEG_HPP

#include "koo_toueg.h"

#include <cstddef>
#include <cstdint>
#include <new>
#include <optional>
#include <stdexcept>
#include <string>
#include <string_view>
#include <vector>

namespace koo_toueg {

// Why a node makes no step. `fault` is of enum kt_node_fault; of a gap, `expected` is the number of the parcel that has to come first.
struct NodeFault : std::runtime_error {
    static constexpr const char *words[] = KT_NODE_WORDS;
    std::uint32_t fault;
    std::uint64_t expected;

    NodeFault(std::uint32_t fault, std::uint64_t expected) : std::runtime_error(words[fault]), fault(fault), expected(expected) {}
};

// Why there is no log, or no answer to one.
struct TextFault : std::runtime_error {
    static constexpr const char *words[] = KT_WHAT_WORDS;
    kt_fault fault;

    explicit TextFault(const kt_fault &fault) : std::runtime_error(words[fault.what]), fault(fault) {}
};

// What comes to a node.
inline kt_input send(std::uint32_t to, std::int64_t body) { return {KT_SEND, to, 0, 0, body, {}}; }
inline kt_input begin_checkpoint(bool able = true) { return {KT_BEGIN, 0, 0, able, 0, {}}; }
inline kt_input begin_rollback() { return {KT_BEGIN, 0, 1, 1, 0, {}}; }
inline kt_input fail() { return {KT_FAIL, 0, 0, 0, 0, {}}; }
inline kt_input redeliver(std::uint32_t from) { return {KT_REDELIVER, from, 0, 0, 0, {}}; }
inline kt_input deliver(std::uint32_t from, const kt_parcel &parcel, bool able = true) { return {KT_DELIVER, from, 0, able, 0, parcel}; }

// What a step puts out.
struct Output : kt_output {
    // The lines of its rows, as merge reads them.
    std::string lines() const {
        std::string all;
        for (const kt_row &row : rows) {
            std::uint8_t line[200];
            std::size_t len;
            if (row.kind && kt_row_text(&row, clock, process, line, sizeof line, &len) == KT_MEMORY) throw std::bad_alloc();
            if (row.kind) all.append(reinterpret_cast<const char *>(line), len);
        }
        return all;
    }
};

// The manager of one process.
class Node {
  public:
    Node(std::uint32_t me, std::uint32_t processes) {
        std::uint32_t status;
        while ((status = kt_node_new(me, processes, state.data(), state.size(), &len)) == KT_SHORT) state.resize(len);
        refuse(status, KT_NODE_INPUT);
    }

    // The node with these bytes, which were those of one.
    explicit Node(std::string_view bytes) : state(bytes.begin(), bytes.end()), len(bytes.size()) {
        state.resize(len + more);
        const kt_input any = fail();
        refuse(kt_node_look(state.data(), len, &any), KT_NODE_STATE);
    }

    std::string_view bytes() const { return {reinterpret_cast<const char *>(state.data()), len}; }

    // Whether its object has to be saved before this input.
    bool has_to_save(const kt_input &input) const {
        const std::uint32_t status = kt_node_look(state.data(), len, &input);
        if (status == KT_MEMORY) throw std::bad_alloc();
        return status == KT_YES;
    }

    // What the step at an input puts out; nothing where a parcel came before, which changes nothing.
    std::optional<Output> step(const kt_input &input) {
        Output output;
        std::uint32_t status;
        while ((status = kt_node_step(state.data(), state.size(), &len, &input, &output)) == KT_SHORT) state.resize(output.needed + more);
        refuse(status, output.fault, output.expected);
        return status == KT_YES ? std::optional<Output>(output) : std::nullopt;
    }

  private:
    static constexpr std::size_t more = 4096; // bytes of room that a state gets to grow
    std::vector<std::uint8_t> state = std::vector<std::uint8_t>(more);
    std::size_t len = 0;

    static void refuse(std::uint32_t status, std::uint32_t fault, std::uint64_t expected = 0) {
        if (status == KT_MEMORY) throw std::bad_alloc();
        if (status == KT_REFUSED) throw NodeFault(fault, expected);
    }
};

// One log of the parts of processes 0, 1 and so on.
inline std::string merge(const std::vector<std::string> &parts) {
    std::vector<kt_text> texts;
    texts.reserve(parts.size() + 1); // so that its address is never null
    for (const std::string &part : parts) texts.push_back({reinterpret_cast<const std::uint8_t *>(part.data()), part.size()});
    std::string log(1 << 14, '\0');
    std::size_t len;
    kt_fault fault;
    while (kt_merge(texts.data(), texts.size(), reinterpret_cast<std::uint8_t *>(log.data()), log.size(), &len, &fault) == KT_SHORT)
        log.resize(len);
    if (fault.what) throw TextFault(fault);
    log.resize(len);
    return log;
}

// The answer to a log by the certificates that it means: its why is KT_WHY_NONE for a yes.
inline kt_answer judge(std::string_view log) {
    kt_answer answer;
    kt_fault fault;
    const char *bytes = log.empty() ? "" : log.data();
    kt_judge(reinterpret_cast<const std::uint8_t *>(bytes), log.size(), &answer, &fault);
    if (fault.what) throw TextFault(fault);
    return answer;
}

} // namespace koo_toueg

#endif
