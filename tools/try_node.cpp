// Nodes of include/koo_toueg.hpp for tools/try-c: drawn runs, whose logs have to get a yes.
//
// usage: try_node RUNS
//
// Each step is tried before it is made: with a buffer that has no room to spare, which is enough or is left as it was; from bytes that
// are cut off, or have a bit changed, which are refused; from bytes with a number changed and the checksum that is theirs, which are refused
// or are a node; and with an input of drawn numbers. Each state is a block of its own, just so long, for a tool that watches memory.
//
// One process of a run is no node and lies: it replies without being asked, decides without having asked, and asks for instances that
// its receiver did not begin, or that are of no process. That changes nothing.
#include "koo_toueg.hpp"

#include <cstdio>
#include <cstdlib>
#include <cstring>
#include <deque>
#include <memory>

using koo_toueg::Node;
using koo_toueg::Output;

static std::uint64_t drawn = 1987;
static unsigned long steps, shorts, refused, others;

static std::uint32_t below(std::uint32_t bound) {
    drawn = drawn * 6364136223846793005u + 1442695040888963407u;
    return static_cast<std::uint32_t>((drawn >> 33) % bound);
}

static void need(bool holds, const char *what) {
    if (holds) return;
    std::fprintf(stderr, "try_node: %s\n", what);
    std::exit(1);
}

static bool is_blank(const kt_output &output) {
    static const kt_output blank = {};
    return !std::memcmp(&output, &blank, sizeof blank);
}

// Gives the node of these bytes an input, in a block that is as long as the bytes; the bytes after it, and the output.
static std::uint32_t try_bytes(std::string &bytes, const kt_input &input, kt_output &output) {
    std::unique_ptr<std::uint8_t[]> block(new std::uint8_t[bytes.size() + 1]);
    std::memcpy(block.get(), bytes.data(), bytes.size());
    std::size_t len = bytes.size();
    std::memset(&output, 0xff, sizeof output);
    const std::uint32_t status = kt_node_step(block.get(), bytes.size(), &len, &input, &output);
    need(status != KT_MEMORY && status != KT_UNREAD, "a status that does not come where there is memory");
    if (status == KT_YES) bytes.assign(reinterpret_cast<char *>(block.get()), len);
    else need(len == bytes.size() && !std::memcmp(block.get(), bytes.data(), len), "a node that made no step was changed");
    if (status == KT_NO) need(is_blank(output), "a parcel that came before says something");
    kt_output rest = output;
    if (status == KT_SHORT) {
        need(output.needed > bytes.size(), "a state that fits did not");
        rest.needed = 0;
        need(is_blank(rest), "a state that does not fit says something");
    } else if (status != KT_YES && status != KT_NO) {
        need(output.fault != KT_NODE_WELL, "a refusal without a reason");
        rest.fault = 0;
        rest.expected = 0;
        need(is_blank(rest), "a refusal says something");
    }
    return status;
}

// Bytes with a number of eight of them changed, and the checksum CRC-32C that is theirs by then.
static std::string forged(std::string_view bytes) {
    std::string text(bytes.substr(0, bytes.size() - 4));
    const std::uint32_t numbers = static_cast<std::uint32_t>(text.size() / 8);
    const std::size_t at = 8 * std::size_t{below(2) ? below(24) : below(numbers)};
    if (below(2)) text[at + below(8)] ^= static_cast<char>(1 << below(8));
    else text.replace(at, 8, std::string(1, static_cast<char>(below(4))).append(7, '\0'));
    std::uint32_t sum = ~0u;
    for (const char letter : text) {
        sum ^= static_cast<std::uint8_t>(letter);
        for (int bit = 0; bit < 8; bit++) sum = (sum >> 1) ^ (sum & 1 ? 0x82f63b78u : 0);
    }
    for (int place = 0; place < 4; place++) text += static_cast<char>(~sum >> (8 * place));
    return text;
}

// Tries what is no node, and what is no input.
static void try_strange(const Node &node, const kt_input &input) {
    kt_output output;
    std::string cut(node.bytes().substr(0, below(static_cast<std::uint32_t>(node.bytes().size()))));
    need(try_bytes(cut, input, output) == KT_REFUSED, "a node that was cut off made a step");
    std::string changed(node.bytes());
    changed[below(static_cast<std::uint32_t>(changed.size()))] ^= static_cast<char>(1 << below(8));
    need(try_bytes(changed, input, output) == KT_REFUSED && output.fault == KT_NODE_STATE, "a changed bit of a node was not seen");
    std::string other = forged(node.bytes());
    try_bytes(other, input, output) == KT_REFUSED ? refused++ : others++;
    kt_input strange;
    unsigned char numbers[sizeof strange];
    for (unsigned char &number : numbers) number = below(3) ? 0 : static_cast<unsigned char>(below(256));
    std::memcpy(&strange, numbers, sizeof strange);
    strange.kind = below(7);
    std::string bytes(node.bytes());
    try_bytes(bytes, strange, output) == KT_REFUSED ? refused++ : others++;
}

// The output of a step, which is the same where there is no room to spare, or that room was too short.
static std::optional<Output> step(Node &node, const kt_input &input) {
    std::string bytes(node.bytes());
    kt_output output;
    const std::uint32_t status = try_bytes(bytes, input, output);
    try_strange(node, input);
    std::optional<Output> made;
    try {
        made = node.step(input);
    } catch (const koo_toueg::NodeFault &) {
        need(status == KT_REFUSED, "a refusal where there was none");
        return made;
    }
    steps++;
    shorts += status == KT_SHORT;
    if (status == KT_YES) need(made && bytes == node.bytes() && !std::memcmp(&output, &*made, sizeof output), "another step");
    else need(status == KT_SHORT || (status == KT_NO && !made), "a step where there was none");
    return made;
}

static bool says_nothing(const Output &output) {
    for (const kt_row &row : output.rows)
        if (row.kind) return false;
    for (const kt_act &act : output.acts)
        if (act.kind) return false;
    for (const kt_parcel &parcel : output.parcels)
        if (parcel.kind) return false;
    return true;
}

// Nodes, and a last process that lies, with how many of its parcels each of them took.
struct Net {
    std::vector<Node> nodes;
    std::vector<std::string> parts;
    std::vector<std::deque<kt_parcel>> links;
    std::vector<std::uint64_t> lies;
    std::uint32_t count;

    explicit Net(std::uint32_t count) : parts(count + 1), links(count * count), lies(count), count(count) {
        for (std::uint32_t p = 0; p < count; p++) nodes.emplace_back(p, count + 1);
    }

    // The last process tells another one what is not so.
    void lie(std::uint32_t at) {
        kt_parcel parcel = {};
        parcel.kind = KT_PARCEL_ASK + below(3);
        const bool asks = parcel.kind == KT_PARCEL_ASK;
        parcel.from = count;
        parcel.to = at;
        parcel.initiator = !asks ? below(count) : below(2) ? at : count + 1;
        parcel.rollback = below(2);
        parcel.yes = below(2);
        parcel.number = lies[at] + 1;
        parcel.clock = below(1000);
        parcel.count = asks ? 1000 : 1 + below(8);
        const std::optional<Output> output = step(nodes[at], koo_toueg::deliver(count, parcel, below(8)));
        need(asks ? !output : output && says_nothing(*output), "a lie is taken");
        lies[at] += !asks;
    }

    void take(std::uint32_t at, const kt_input &input) {
        std::optional<Output> output = step(nodes[at], input);
        while (output) {
            parts[at] += output->lines();
            for (std::uint32_t to = 0; to < count; to++)
                if (output->parcels[to].kind) links[at * count + to].push_back(output->parcels[to]);
            if (!output->held) break;
            output = step(nodes[at], koo_toueg::redeliver(output->held - 1));
        }
    }

    // A drawn step: mostly a parcel that comes, now and then twice, or after a lie.
    void draw() {
        const std::uint32_t at = below(count), from = below(count), what = below(40);
        if (!below(8)) lie(at);
        if (what == 0) take(at, koo_toueg::begin_checkpoint(below(8)));
        else if (what == 1) take(at, koo_toueg::begin_rollback());
        else if (what == 2) take(at, koo_toueg::fail());
        else if (what < 14) take(at, koo_toueg::send(from, static_cast<std::int64_t>(below(1000)) - 500));
        else if (!links[from * count + at].empty()) {
            std::deque<kt_parcel> &link = links[from * count + at];
            take(at, koo_toueg::deliver(from, link.front(), below(8)));
            if (below(16)) link.pop_front();
        }
        if (!below(8)) nodes[at] = Node(nodes[at].bytes());
    }
};

int main(int count, char **words) {
    const int runs = count == 2 ? std::atoi(words[1]) : 0;
    unsigned long rows = 0;
    for (int run = 0; run < runs; run++) {
        Net net(2 + static_cast<std::uint32_t>(run) % 6);
        for (int turn = 0; turn < 400; turn++) net.draw();
        const std::string log = koo_toueg::merge(net.parts);
        need(koo_toueg::judge(log).why == KT_WHY_NONE, "the log of nodes gets a no");
        for (const char letter : log) rows += letter == '\n';
    }
    std::printf("%d runs of nodes in C++, %lu steps, %lu rows: yes; %lu steps found no room, %lu strange nodes and inputs were refused, %lu taken\n",
                runs, steps, rows, shorts, refused, others);
}
