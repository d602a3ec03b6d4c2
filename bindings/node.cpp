// Two nodes in one program: a payment, and a checkpoint that takes in its sender. Their parts make one log, which is judged.
#include "koo_toueg.hpp"

#include <deque>
#include <iostream>

int main() {
    std::vector<koo_toueg::Node> nodes{{0, 2}, {1, 2}};
    std::vector<std::string> parts(2);
    std::deque<kt_parcel> on_way;

    const auto step = [&](std::uint32_t at, kt_input input) {
        if (nodes[at].has_to_save(input)) std::cout << "process " << at << " saves its object\n";
        const std::optional<koo_toueg::Output> output = nodes[at].step(input);
        if (!output) return;
        parts[at] += output->lines();
        for (const kt_parcel &parcel : output->parcels)
            if (parcel.kind) on_way.push_back(parcel);
    };
    const auto deliver_all = [&] {
        for (; !on_way.empty(); on_way.pop_front()) step(on_way.front().to, koo_toueg::deliver(on_way.front().from, on_way.front()));
    };

    step(0, koo_toueg::send(1, 250));
    deliver_all();
    step(1, koo_toueg::begin_checkpoint());
    try {
        step(1, koo_toueg::send(0, 1));
    } catch (const koo_toueg::NodeFault &fault) {
        std::cout << "process 1 " << fault.what() << "\n";
    }
    nodes[0] = koo_toueg::Node(nodes[0].bytes());
    deliver_all();

    const std::string log = koo_toueg::merge(parts);
    std::cout << log << (koo_toueg::judge(log).why == KT_WHY_NONE ? "yes" : "no") << "\n";
}

/* It prints:
process 1 saves its object
process 1 waits
process 0 saves its object
kt,2,-,-
sent,0,1,250
received,1,0,1
began,1,1,checkpoint
took,1,1,-
took,0,1,-
decided,1,1,commit
closed,1,1,-
closed,0,1,-
yes
*/
