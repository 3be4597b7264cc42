// Decides tables given as hex digits, as words, and as a type with num_vars() and words, as kitty's tables are; keeps an open job as bytes
// and carries it on; checks gates from elsewhere; and decides tables of which some rows never occur.
#include <cstdint>
#include <iostream>
#include <type_traits>
#include <variant>
#include <vector>

#include "threshold.hpp"

using threshold::Gate, threshold::Job, threshold::Outcome, threshold::Table, threshold::Witness;

static_assert(std::is_trivially_copyable_v<Outcome>, "a verdict is a plain value");

// A table as kitty has it: the number of variables, and words of 64 rows.
struct TruthTable {
    std::uint32_t vars;
    std::vector<std::uint64_t> words;
    std::uint32_t num_vars() const noexcept { return vars; }
    auto cbegin() const noexcept { return words.cbegin(); }
    auto cend() const noexcept { return words.cend(); }
};

struct Print {
    void operator()(const Gate &gate) const {
        std::cout << "a gate, weights";
        for (const auto weight : gate.weights()) {
            std::cout << ' ' << weight;
        }
        std::cout << ", T " << gate.threshold() << "; checked: " << (gate.check() ? "yes" : "no") << '\n';
    }
    void operator()(const Witness &witness) const {
        std::cout << "no gate, witness";
        const auto counts = witness.counts();
        for (std::size_t row = 0; row < counts.size(); ++row) {
            if (counts[row] != 0) {
                std::cout << ' ' << row << ':' << counts[row];
            }
        }
        std::cout << "; checked: " << (witness.check() ? "yes" : "no") << '\n';
    }
    void operator()(const Job &job) const { std::cout << "open at K " << job.corrections() << '\n'; }
};

void print(const char *name, const threshold::Result<Outcome> &outcome) {
    std::cout << name << ": ";
    if (!outcome) {
        std::cout << "refused, " << threshold::text(outcome.refusal()) << '\n';
        return;
    }
    std::cout << outcome->made << " corrections made, ";
    std::visit(Print{}, outcome->verdict);
}

// Keeps a job's bytes, as a file would, reads them back and carries the job on.
void carry_on(const Job &job) {
    const threshold::Bytes record = job.record();
    const std::vector<std::uint8_t> kept(record.begin(), record.end());
    if (const auto again = Job::from_record(kept.data(), kept.size())) {
        print("slow, carried on", again->carry_on());
        print("slow, by no budget", again->carry_on(0));
    }
}

// Checks the gate 1 1 1 with T against the majority of three.
void check(const Table &majority, std::int32_t threshold) {
    const std::int32_t weights[] = {1, 1, 1};
    if (const auto gate = Gate::from(majority, weights, 3, threshold)) {
        std::cout << "1 1 1, T " << threshold << ": " << (gate->check() ? "the majority\n" : "not the majority\n");
    }
}

// A gate is kept as its record, if it has one.
void keep(const char *name, const Gate &gate) {
    const auto record = gate.record();
    if (!record) {
        std::cout << name << ": no record, " << threshold::text(record.refusal()) << '\n';
        return;
    }
    const auto again = Gate::from_record(record->data(), record->size());
    std::cout << name << ": " << record->size() << " bytes, " << (again && *again == gate ? "read back\n" : "not read back\n");
}

// XOR of two inputs, of which not both are ever true; the slow table without row 0; and a gate for source document 002's example.
void partial(const Table &slow) {
    const auto never_both = threshold::decide(TruthTable{2, {0x6}}, TruthTable{2, {0x7}});
    print("xor, never both", never_both);
    if (const Gate *gate = never_both ? std::get_if<Gate>(&never_both->verdict) : nullptr) {
        std::cout << "row 3: cared for " << *gate->table().cares_for(3) << ", the table's " << *gate->table().value(3) << ", the gate's "
                  << *gate->value(3) << '\n';
        keep("its gate", *gate);
    }
    const std::uint64_t values[] = {0x06}, cares[] = {0x0f}, words[] = {0xe0}, but_one[] = {0xf7};
    if (const auto half = Table::from_cares(3, values, 1, cares, 1)) {
        print("xor, where input 3 is false", threshold::decide(*half));
    }
    const auto example = Table::from_cares(3, words, 1, but_one, 1);
    const std::int32_t weights[] = {1, 1, 1};
    if (example) {
        std::cout << "1 1 1, T 2, row 3 free: " << (*example->check_gate(weights, 3, 2) ? "agrees\n" : "differs\n");
        std::cout << "1 1 1, T 2, row 3 false: " << (*example->with_every_row().check_gate(weights, 3, 2) ? "agrees\n" : "differs\n");
    }
    std::cout << "a value on a free row: " << threshold::text(Table::from_cares(3, words, 1, cares, 1).refusal()) << '\n';
    print("cares for two inputs of three", threshold::decide(TruthTable{3, {0xe0}}, TruthTable{2, {0x7}}));

    std::vector<std::uint64_t> slow_words(4), all_but_row_0 = {~std::uint64_t{1}, ~std::uint64_t{0}, ~std::uint64_t{0}, ~std::uint64_t{0}};
    for (std::uint32_t row = 0; row < slow.row_count(); ++row) {
        slow_words[row / 64] |= std::uint64_t{*slow.value(row)} << row % 64;
    }
    const auto open = threshold::decide(TruthTable{8, slow_words}, TruthTable{8, all_but_row_0});
    print("slow, row 0 free", open);
    if (const Job *job = open ? std::get_if<Job>(&open->verdict) : nullptr) {
        carry_on(*job);
        std::cout << "the job's table: " << (job->table().is_partial() ? "partial\n" : "full\n");
    }
}

int main() {
    const auto majority = Table::from_hex(3, "e8");
    if (!majority) {
        return 1;
    }
    print("majority", threshold::decide(*majority));
    check(*majority, 2);
    check(*majority, 3);
    const auto outcome = threshold::decide(*majority);
    if (const Gate *gate = std::get_if<Gate>(&outcome.verdict)) {
        keep("its gate", *gate);
    }

    const std::uint64_t words[] = {0xa0a0000000000000, 0xa8a0808080800000, 0xeaeaa8a0a0a08000, 0xfffffaaae8a8a0a0};
    const auto slow = threshold::decide(8, words, 4);
    print("slow", slow);
    if (const Job *job = slow ? std::get_if<Job>(&slow->verdict) : nullptr) {
        carry_on(*job);
    }

    // ABC repeats the rows of a table under six inputs over the word, and kitty does not: both are the same table.
    const auto repeated = Table::of(TruthTable{3, {0xe8e8e8e8e8e8e8e8}});
    std::cout << "majority, repeated over a word: " << (repeated && *repeated == *majority ? "the same table\n" : "another table\n");

    print("xor", threshold::decide(TruthTable{2, {0x6}}));
    print("nine variables", threshold::decide(TruthTable{9, std::vector<std::uint64_t>(8)}));
    print("too few words", threshold::decide(8, words, 3));
    std::cout << "e: " << threshold::text(Table::from_hex(3, "e").refusal()) << '\n';
    std::cout << "e?: " << threshold::text(Table::from_hex(3, "e?").refusal()) << '\n';
    if (const auto table = Table::from_words(8, words, 4)) {
        partial(*table);
    }
}
