// The threshold cell verdict for C++17, over threshold.h: whether one threshold gate can carry a Boolean function of up to eight inputs.
//
//     const auto table = threshold::Table::from_hex(3, "e8");
//     if (!table) return fail(threshold::text(table.refusal()));
//     const threshold::Outcome outcome = threshold::decide(*table);
//     if (const auto *gate = std::get_if<threshold::Gate>(&outcome.verdict)) use(gate->weights(), gate->threshold());
//
// Where some rows never occur, Table::from_cares says which are cared for: a gate then has to agree on these alone.
//
// A Table or a Job holds a record that the library has written or read, and a Gate or a Witness its table and numbers that the library has
// given or taken. So each is whole and right, and a call that takes one refuses only what it says. docs/FORMAT.md describes the bytes. A
// gate's and a witness's record is written when it is asked for; there is none for a table with a row that is not cared for. All are plain
// values; nothing throws, allocates memory or is shared between calls, and an iterator lent to a call must not throw either.
#ifndef THRESHOLD_HPP
#define THRESHOLD_HPP

#include <algorithm>
#include <array>
#include <cstddef>
#include <cstdint>
#include <iterator>
#include <string_view>
#include <type_traits>
#include <utility>
#include <variant>

#include "threshold.h"

namespace threshold {

// ---- refusals and results

// The header's numbers. `none` stands where nothing was refused.
enum class Refusal : std::uint8_t {
    none = 0,
    ends_early = THRESHOLD_REFUSED_ENDS_EARLY,
    inputs = THRESHOLD_REFUSED_INPUTS,
    spare_bit = THRESHOLD_REFUSED_SPARE_BIT,
    number = THRESHOLD_REFUSED_NUMBER,
    kind = THRESHOLD_REFUSED_KIND,
    bytes_left = THRESHOLD_REFUSED_BYTES_LEFT,
    gate = THRESHOLD_REFUSED_GATE,
    row_list = THRESHOLD_REFUSED_ROW_LIST,
    unsound = THRESHOLD_REFUSED_UNSOUND,
    budget = THRESHOLD_REFUSED_BUDGET,
    cap = THRESHOLD_REFUSED_CAP,
    room = THRESHOLD_REFUSED_ROOM,
    ended = THRESHOLD_REFUSED_ENDED,
    row = THRESHOLD_REFUSED_ROW,
    report_input = THRESHOLD_REFUSED_REPORT_INPUT,
    care = THRESHOLD_REFUSED_CARE,
    other_kind = THRESHOLD_REFUSED_OTHER_KIND,
    digits = THRESHOLD_REFUSED_DIGITS,
    digit = THRESHOLD_REFUSED_DIGIT,
    words = THRESHOLD_REFUSED_WORDS,
    numbers = THRESHOLD_REFUSED_NUMBERS,
    not_found = THRESHOLD_REFUSED_NOT_FOUND
};

inline const char *text(Refusal refusal) noexcept {
    return threshold_refusal_text(-static_cast<std::int64_t>(refusal));
}

// A value, or the refusal in its place. Test it before `*` or `->`, which have no meaning on a refusal.
template <class T> class [[nodiscard]] Result {
public:
    Result(const T &value) noexcept : held_(value) {}
    Result(Refusal refusal) noexcept : held_(refusal) {}

    explicit operator bool() const noexcept { return std::holds_alternative<T>(held_); }
    const T &operator*() const & noexcept { return *std::get_if<T>(&held_); }
    T operator*() const && noexcept { return *std::get_if<T>(&held_); }
    const T *operator->() const noexcept { return std::get_if<T>(&held_); }

    // `none` where there is a value.
    Refusal refusal() const noexcept {
        const Refusal *refused = std::get_if<Refusal>(&held_);
        return refused == nullptr ? Refusal::none : *refused;
    }

private:
    std::variant<T, Refusal> held_;
};

// ---- lists and bytes

// At most Most items, held in place.
template <class Item, std::size_t Most> class List {
public:
    List(const std::array<Item, Most> &items, std::size_t size) noexcept : items_(items), size_(size) {}

    std::size_t size() const noexcept { return size_; }
    const Item *data() const noexcept { return items_.data(); }
    const Item *begin() const noexcept { return items_.data(); }
    const Item *end() const noexcept { return items_.data() + size_; }
    Item operator[](std::size_t place) const noexcept { return items_[place]; }

private:
    std::array<Item, Most> items_;
    std::size_t size_;
};

// The bytes of a record, seen in the value that holds them.
class Bytes {
public:
    Bytes(const std::uint8_t *data, std::size_t size) noexcept : data_(data), size_(size) {}

    std::size_t size() const noexcept { return size_; }
    const std::uint8_t *data() const noexcept { return data_; }
    const std::uint8_t *begin() const noexcept { return data_; }
    const std::uint8_t *end() const noexcept { return data_ + size_; }

private:
    const std::uint8_t *data_;
    std::size_t size_;
};

namespace detail {

using Answer = std::array<std::uint8_t, THRESHOLD_ROOM>;

// Room for the longest records: kind, n and 32 bytes of values, with which gates and witnesses begin; 32 bytes of cares; numbers of three
// bytes, eight weights and T; K, v and s; a row list of 256 pairs.
constexpr std::size_t full_room = 2 + 32;
constexpr std::size_t table_room = full_room + 32;
constexpr std::size_t vector_room = 9 * 3;
constexpr std::size_t rows_room = 2 + 256 * (2 + 3);
constexpr std::size_t gate_room = full_room + vector_room;
constexpr std::size_t witness_room = full_room + rows_room;
constexpr std::size_t job_room = table_room + 3 + 2 * vector_room + rows_room;
static_assert(job_room <= THRESHOLD_ROOM, "every record fits the header's room");

inline Refusal refused(std::int64_t returned) noexcept {
    return static_cast<Refusal>(-returned);
}

// A record of one of two kinds: with every row of its table cared for, or not. Self has a constructor from bytes that are known to be such
// a record.
template <class Self, std::uint8_t Full, std::uint8_t Partial, std::size_t Room> class Record {
public:
    // Reads a record from anyone. Refusals: reading's, other_kind.
    static Result<Self> from_record(const std::uint8_t *bytes, std::size_t length) noexcept {
        const std::int64_t kind = threshold_kind(bytes, length);
        if (kind != Full && kind != Partial) {
            return kind < 0 ? refused(kind) : Refusal::other_kind;
        }
        return Self(bytes, length);
    }

    // The bytes, to be kept or sent.
    Bytes record() const & noexcept { return Bytes(bytes_.data(), length_); }
    Bytes record() const && = delete;

    // Two of them are equal if their bytes are.
    friend bool operator==(const Record &one, const Record &other) noexcept {
        return one.length_ == other.length_ && std::equal(one.bytes_.begin(), one.bytes_.begin() + one.length_, other.bytes_.begin());
    }
    friend bool operator!=(const Record &one, const Record &other) noexcept { return !(one == other); }

    // The number of inputs, n, and of rows, 2^n.
    std::uint32_t inputs() const noexcept { return bytes_[1]; }
    std::uint32_t row_count() const noexcept { return std::uint32_t{1} << inputs(); }

    // Whether some row is not cared for.
    bool is_partial() const noexcept { return bytes_[0] == Partial; }

protected:
    Record(const std::uint8_t *bytes, std::size_t length) noexcept : length_(static_cast<std::uint16_t>(length)) {
        std::copy_n(bytes, length, bytes_.begin());
    }

    // The record made by a call that writes one, or its refusal.
    static Result<Self> made(const Answer &out, std::int64_t length) noexcept {
        if (length < 0) {
            return refused(length);
        }
        return Self(out.data(), static_cast<std::size_t>(length));
    }

    // The bytes of the values, which are as many as those of the cares.
    std::size_t value_bytes() const noexcept { return (row_count() + 7) / 8; }

    std::array<std::uint8_t, Room> bytes_{};
    std::uint16_t length_;
};

// Makes tables and verdicts of records; defined below.
struct Maker;

// What a call says of yes or no, or its refusal.
inline Result<bool> truth(std::int64_t returned) noexcept {
    if (returned < 0) {
        return refused(returned);
    }
    return returned == 1;
}

// The first words, up to four, and how many of them were there.
template <class Iterator> std::pair<std::array<std::uint64_t, 4>, std::size_t> first_words(Iterator first, std::size_t count) noexcept {
    std::array<std::uint64_t, 4> words{};
    const std::size_t taken = std::min(count, words.size());
    for (std::size_t place = 0; place < taken; ++place, ++first) {
        words[place] = *first;
    }
    return {words, taken};
}

// Whether an iterator runs over unsigned words of 64 bits.
template <class Iterator, class = void> struct IsOverWords : std::false_type {};
template <class Iterator>
struct IsOverWords<Iterator, std::void_t<typename std::iterator_traits<Iterator>::value_type>>
    : std::bool_constant<std::is_unsigned_v<typename std::iterator_traits<Iterator>::value_type> &&
                         sizeof(typename std::iterator_traits<Iterator>::value_type) == sizeof(std::uint64_t)> {};

// The words of another library's table: cbegin() and cend(), or else begin() and end().
template <class TT> auto words_of(const TT &table, int) noexcept -> decltype(std::make_pair(table.cbegin(), table.cend())) {
    return {table.cbegin(), table.cend()};
}
template <class TT> auto words_of(const TT &table, long) noexcept -> decltype(std::make_pair(table.begin(), table.end())) {
    return {table.begin(), table.end()};
}

// Whether a type has num_vars() and such words.
template <class TT, class = void> struct IsTable : std::false_type {};
template <class TT>
struct IsTable<TT, std::void_t<decltype(static_cast<std::uint64_t>(std::declval<const TT &>().num_vars())),
                       decltype(words_of(std::declval<const TT &>(), 0))>>
    : IsOverWords<decltype(words_of(std::declval<const TT &>(), 0).first)> {};

// The number of words between two iterators.
template <class Words> std::size_t count_of(const Words &words) noexcept {
    return static_cast<std::size_t>(std::distance(words.first, words.second));
}

template <class TT> using IfTable = std::enable_if_t<IsTable<TT>::value, int>;
template <class Iterator> using IfOverWords = std::enable_if_t<IsOverWords<Iterator>::value, int>;

} // namespace detail

// ---- tables

enum class InputKind : std::uint8_t {
    idle = THRESHOLD_INPUT_IDLE,
    rising = THRESHOLD_INPUT_RISING,
    falling = THRESHOLD_INPUT_FALLING,
    binate = THRESHOLD_INPUT_BINATE
};

class Table : public detail::Record<Table, THRESHOLD_RECORD_TABLE, THRESHOLD_RECORD_PARTIAL_TABLE, detail::table_room> {
public:
    // The table of hex digits as ABC and kitty write them, the digit of the highest rows first. Refusals: inputs, digits, digit.
    static Result<Table> from_hex(std::uint32_t inputs, std::string_view digits) noexcept {
        detail::Answer out;
        return made(out, threshold_from_hex(inputs, digits.data(), digits.size(), out.data(), out.size()));
    }

    // The table of `count` words of 64 rows: row r is bit r mod 64 of word r div 64. Bits and words past the table are left out of account.
    // Refusals: inputs, words.
    template <class Iterator, detail::IfOverWords<Iterator> = 0>
    static Result<Table> from_words(std::uint32_t inputs, Iterator first, std::size_t count) noexcept {
        const auto words = detail::first_words(first, count);
        detail::Answer out;
        return made(out, threshold_from_words(inputs, words.first.data(), words.second, out.data(), out.size()));
    }

    // The same, of which the rows are cared for that `care_count` words laid out alike say. Refusals: inputs, words, care.
    template <class Iterator, class Cares, detail::IfOverWords<Iterator> = 0, detail::IfOverWords<Cares> = 0>
    static Result<Table> from_cares(std::uint32_t inputs, Iterator first, std::size_t count, Cares cares, std::size_t care_count) noexcept {
        const auto words = detail::first_words(first, count);
        const auto cared = detail::first_words(cares, care_count);
        detail::Answer out;
        return made(out, threshold_from_cares(inputs, words.first.data(), words.second, cared.first.data(), cared.second, out.data(),
                             out.size()));
    }

    // The table of anything with num_vars() and an iterator over its words, as kitty's tables. Refusals: inputs, words.
    template <class TT, detail::IfTable<TT> = 0> static Result<Table> of(const TT &table) noexcept {
        const auto words = detail::words_of(table, 0);
        const auto inputs = static_cast<std::uint64_t>(table.num_vars());
        if (inputs > 8) {
            return Refusal::inputs;
        }
        return from_words(static_cast<std::uint32_t>(inputs), words.first, detail::count_of(words));
    }

    // The same, of which the rows are cared for that another such table, of as many inputs, says. Refusals: inputs (of the first), numbers
    // (the other of another number of inputs), words (too few of either), care.
    template <class TT, class Cares, detail::IfTable<TT> = 0, detail::IfTable<Cares> = 0>
    static Result<Table> of(const TT &table, const Cares &cares) noexcept {
        const auto words = detail::words_of(table, 0);
        const auto cared = detail::words_of(cares, 0);
        const auto inputs = static_cast<std::uint64_t>(table.num_vars());
        if (inputs > 8) {
            return Refusal::inputs;
        }
        if (inputs != static_cast<std::uint64_t>(cares.num_vars())) {
            return Refusal::numbers;
        }
        return from_cares(static_cast<std::uint32_t>(inputs), words.first, detail::count_of(words), cared.first, detail::count_of(cared));
    }

    // The value on a row, behind `*`: as it stands the result says whether there is one. False where the row is not cared for.
    // Refusals: row.
    Result<bool> value(std::uint32_t row) const noexcept { return detail::truth(threshold_value(bytes_.data(), length_, row)); }

    // Whether a row is cared for, behind `*`. Refusals: row.
    Result<bool> cares_for(std::uint32_t row) const noexcept {
        if (row >= row_count()) {
            return Refusal::row;
        }
        return !is_partial() || (bytes_[2 + value_bytes() + row / 8] >> row % 8 & 1) == 1;
    }

    // Whether a gate of these numbers, from anyone, agrees on every row that is cared for, behind `*`. Refusals: numbers, gate.
    Result<bool> check_gate(const std::int32_t *weights, std::size_t count, std::int32_t threshold) const noexcept {
        return detail::truth(threshold_check_gate(bytes_.data(), length_, weights, count, threshold));
    }

    // Whether a witness of these counts, from anyone, balances, behind `*`. Refusals: numbers, row_list.
    Result<bool> check_witness(const std::uint32_t *counts, std::size_t count) const noexcept {
        return detail::truth(threshold_check_witness(bytes_.data(), length_, counts, count));
    }

    // The table of the same values with every row cared for: a row that was not cared for becomes a false one.
    Table with_every_row() const noexcept {
        std::array<std::uint8_t, detail::table_room> bytes = bytes_;
        bytes[0] = THRESHOLD_RECORD_TABLE;
        return Table(bytes.data(), 2 + value_bytes());
    }

    // The kind of each input.
    List<InputKind, 8> kinds() const noexcept {
        std::array<std::uint8_t, 8> out{};
        threshold_kinds(bytes_.data(), length_, out.data(), out.size());
        std::array<InputKind, 8> kinds{};
        std::transform(out.begin(), out.end(), kinds.begin(), [](std::uint8_t kind) { return static_cast<InputKind>(kind); });
        return List<InputKind, 8>(kinds, inputs());
    }

    // Chow's parameter q of each input.
    List<std::int16_t, 8> chow() const noexcept {
        std::array<std::uint8_t, 16> out{};
        threshold_chow(bytes_.data(), length_, out.data(), out.size());
        std::array<std::int16_t, 8> q{};
        for (std::size_t place = 0; place < q.size(); ++place) {
            q[place] = static_cast<std::int16_t>(out[2 * place] | out[2 * place + 1] << 8);
        }
        return List<std::int16_t, 8>(q, inputs());
    }

private:
    friend Record;
    friend struct detail::Maker;
    Table(const std::uint8_t *bytes, std::size_t length) noexcept : Record(bytes, length) {}
};

// ---- gates, witnesses and jobs

struct Outcome;

// A table with a gate for it, which is true on a row where the weights of the true inputs add up to at least the threshold.
class Gate {
public:
    using Record = List<std::uint8_t, detail::gate_room>;

    // A gate from anyone, to be checked: a weight for each input, and T. Refusals: numbers, gate.
    static Result<Gate> from(const Table &table, const std::int32_t *weights, std::size_t count, std::int32_t threshold) noexcept {
        const auto checked = table.check_gate(weights, count, threshold);
        if (!checked) {
            return checked.refusal();
        }
        std::array<std::int32_t, 8> numbers{};
        std::copy_n(weights, count, numbers.begin());
        return Gate(table, numbers, threshold);
    }

    // Reads a record (kind 2) from anyone. Refusals: reading's, other_kind.
    static Result<Gate> from_record(const std::uint8_t *bytes, std::size_t length) noexcept;

    // The record (kind 2), to be kept or sent. Refusals: care, where a row of the table is not cared for, since no record carries it.
    Result<Record> record() const noexcept;

    const Table &table() const noexcept { return table_; }
    std::uint32_t inputs() const noexcept { return table_.inputs(); }
    std::uint32_t row_count() const noexcept { return table_.row_count(); }

    // The weights, from input 1 on, and T.
    List<std::int32_t, 8> weights() const noexcept { return List<std::int32_t, 8>(weights_, inputs()); }
    std::int32_t threshold() const noexcept { return threshold_; }

    // Whether the gate has the table's value on every row that is cared for: true of a verdict's gate.
    bool check() const noexcept { return *table_.check_gate(weights_.data(), inputs(), threshold_); }

    // The gate's value on a row, cared for or not, behind `*`. Refusals: row.
    Result<bool> value(std::uint32_t row) const noexcept {
        // The value is the gate's alone, so a record of it with every row cared for will do.
        const auto gate = Gate(table_.with_every_row(), weights_, threshold_).record();
        return detail::truth(threshold_value(gate->data(), gate->size(), row));
    }

    friend bool operator==(const Gate &one, const Gate &other) noexcept {
        return one.table_ == other.table_ && one.weights_ == other.weights_ && one.threshold_ == other.threshold_;
    }
    friend bool operator!=(const Gate &one, const Gate &other) noexcept { return !(one == other); }

private:
    friend struct detail::Maker;
    Gate(const Table &table, const std::array<std::int32_t, 8> &weights, std::int32_t threshold) noexcept
        : table_(table), weights_(weights), threshold_(threshold) {}

    Table table_;
    std::array<std::int32_t, 8> weights_; // past the inputs 0
    std::int32_t threshold_;
};

// A table with a witness against it: a count for each row. It balances if the true rows and the false rows, each as often as it counts, are
// equally many and hold each input equally often, and no row has a count that is not cared for.
class Witness {
public:
    using Record = List<std::uint8_t, detail::witness_room>;

    // A witness from anyone, to be checked: a count for each row. Refusals: numbers, row_list.
    static Result<Witness> from(const Table &table, const std::uint32_t *counts, std::size_t count) noexcept {
        const auto checked = table.check_witness(counts, count);
        if (!checked) {
            return checked.refusal();
        }
        std::array<std::uint32_t, 256> numbers{};
        std::copy_n(counts, count, numbers.begin());
        return Witness(table, numbers);
    }

    // Reads a record (kind 3) from anyone. Refusals: reading's, other_kind.
    static Result<Witness> from_record(const std::uint8_t *bytes, std::size_t length) noexcept;

    // The record (kind 3), to be kept or sent. Refusals: care, where a row of the table is not cared for, since no record carries it.
    Result<Record> record() const noexcept;

    const Table &table() const noexcept { return table_; }
    std::uint32_t inputs() const noexcept { return table_.inputs(); }
    std::uint32_t row_count() const noexcept { return table_.row_count(); }

    // The count of each row, from row 0 on.
    List<std::uint32_t, 256> counts() const noexcept { return List<std::uint32_t, 256>(counts_, table_.row_count()); }

    // Whether the witness balances, so that the table has no gate: true of a verdict's witness.
    bool check() const noexcept { return *table_.check_witness(counts_.data(), table_.row_count()); }

    friend bool operator==(const Witness &one, const Witness &other) noexcept {
        return one.table_ == other.table_ && one.counts_ == other.counts_;
    }
    friend bool operator!=(const Witness &one, const Witness &other) noexcept { return !(one == other); }

private:
    friend struct detail::Maker;
    Witness(const Table &table, const std::array<std::uint32_t, 256> &counts) noexcept : table_(table), counts_(counts) {}

    Table table_;
    std::array<std::uint32_t, 256> counts_; // past the rows 0
};

// A table with an open job, to be kept and carried on.
class Job : public detail::Record<Job, THRESHOLD_RECORD_JOB, THRESHOLD_RECORD_PARTIAL_JOB, detail::job_room> {
public:
    Table table() const noexcept;

    // The corrections made so far, K.
    std::uint32_t corrections() const noexcept { return static_cast<std::uint32_t>(threshold_corrections(bytes_.data(), length_)); }

    // Carries on by at most `budget` corrections; the job stays as it is. Refusals: budget, cap.
    Result<Outcome> carry_on(std::uint32_t budget = THRESHOLD_CALL_BUDGET) const noexcept;

private:
    friend Record;
    friend struct detail::Maker;
    Job(const std::uint8_t *bytes, std::size_t length) noexcept : Record(bytes, length) {}
};

// ---- verdicts

// A gate with the values of the table on every row that is cared for; or a balanced witness, after which it has no gate; or an open job,
// given up so far.
using Verdict = std::variant<Gate, Witness, Job>;

// A verdict, and the corrections made by the call that gave it.
struct Outcome {
    Verdict verdict;
    std::uint32_t made;
};

namespace detail {

struct Maker {
    // The table with which a record of any kind begins, which is whole and right.
    static Table table(const std::uint8_t *record) noexcept {
        const bool partial = record[0] >= THRESHOLD_RECORD_PARTIAL_TABLE;
        const std::size_t bits = ((std::size_t{1} << record[1]) + 7) / 8, length = 2 + (partial ? 2 : 1) * bits;
        std::array<std::uint8_t, table_room> bytes{};
        std::copy_n(record, length, bytes.begin());
        bytes[0] = partial ? THRESHOLD_RECORD_PARTIAL_TABLE : THRESHOLD_RECORD_TABLE;
        return Table(bytes.data(), length);
    }

    // The gate of a record of kind 2.
    static Gate gate(const std::uint8_t *record, std::size_t length) noexcept {
        std::array<std::int32_t, 8> weights{};
        std::int32_t threshold = 0;
        threshold_gate(record, length, weights.data(), weights.size(), &threshold);
        return Gate(table(record), weights, threshold);
    }

    // The witness of a record of kind 3.
    static Witness witness(const std::uint8_t *record, std::size_t length) noexcept {
        std::array<std::uint32_t, 256> counts{};
        threshold_witness(record, length, counts.data(), counts.size());
        return Witness(table(record), counts);
    }

    // The verdict of a record of kind 2, 3, 4 or 6.
    static Verdict verdict(const Answer &out, std::int64_t returned) noexcept {
        const auto length = static_cast<std::size_t>(returned);
        switch (out[0]) {
        case THRESHOLD_RECORD_GATE: return gate(out.data(), length);
        case THRESHOLD_RECORD_WITNESS: return witness(out.data(), length);
        default: return Job(out.data(), length);
        }
    }

    // The gate or the witness with which the job of a record ends within the budget.
    static Outcome found(const Bytes &job, std::uint32_t budget) noexcept {
        std::array<std::int32_t, 8> weights{};
        std::array<std::uint32_t, 256> counts{};
        std::int32_t threshold = 0;
        std::uint32_t made = 0;
        if (threshold_find_gate(job.data(), job.size(), budget, weights.data(), weights.size(), &threshold, &made) >= 0) {
            return {Gate(table(job.data()), weights, threshold), made};
        }
        threshold_find_witness(job.data(), job.size(), budget, counts.data(), counts.size(), &made);
        return {Witness(table(job.data()), counts), made};
    }

    // What a call on the job of a record has written and made within the budget; where no record carries that, what the job ends with.
    static Result<Outcome> outcome(const Bytes &job, std::uint32_t budget, const Answer &out, std::int64_t length,
        std::uint32_t made) noexcept {
        if (length == -THRESHOLD_REFUSED_CARE) {
            return found(job, budget);
        }
        if (length < 0) {
            return refused(length);
        }
        return Outcome{verdict(out, length), made};
    }
};

// The bytes that a call has written, or its refusal.
template <std::size_t Room>
Result<List<std::uint8_t, Room>> written(const std::array<std::uint8_t, Room> &out, std::int64_t length) noexcept {
    if (length < 0) {
        return refused(length);
    }
    return List<std::uint8_t, Room>(out, static_cast<std::size_t>(length));
}

} // namespace detail

inline Result<Gate> Gate::from_record(const std::uint8_t *bytes, std::size_t length) noexcept {
    const std::int64_t kind = threshold_kind(bytes, length);
    if (kind != THRESHOLD_RECORD_GATE) {
        return kind < 0 ? detail::refused(kind) : Refusal::other_kind;
    }
    return detail::Maker::gate(bytes, length);
}

inline Result<Gate::Record> Gate::record() const noexcept {
    std::array<std::uint8_t, detail::gate_room> out{};
    const Bytes table = table_.record();
    const std::int64_t length =
        threshold_from_gate(table.data(), table.size(), weights_.data(), inputs(), threshold_, out.data(), out.size());
    return detail::written(out, length);
}

inline Result<Witness> Witness::from_record(const std::uint8_t *bytes, std::size_t length) noexcept {
    const std::int64_t kind = threshold_kind(bytes, length);
    if (kind != THRESHOLD_RECORD_WITNESS) {
        return kind < 0 ? detail::refused(kind) : Refusal::other_kind;
    }
    return detail::Maker::witness(bytes, length);
}

inline Result<Witness::Record> Witness::record() const noexcept {
    std::array<std::uint8_t, detail::witness_room> out{};
    const Bytes table = table_.record();
    const std::int64_t length =
        threshold_from_witness(table.data(), table.size(), counts_.data(), table_.row_count(), out.data(), out.size());
    return detail::written(out, length);
}

inline Table Job::table() const noexcept {
    return detail::Maker::table(bytes_.data());
}

// Decides a table within 100,000 corrections.
inline Outcome decide(const Table &table) noexcept {
    detail::Answer out;
    std::uint32_t made = 0;
    const Bytes record = table.record();
    const std::int64_t length = threshold_decide(record.data(), record.size(), out.data(), out.size(), &made);
    return *detail::Maker::outcome(record, THRESHOLD_CALL_BUDGET, out, length, made);
}

// Decides the table of `count` words. Refusals: those of Table::from_words.
template <class Iterator, detail::IfOverWords<Iterator> = 0>
Result<Outcome> decide(std::uint32_t inputs, Iterator first, std::size_t count) noexcept {
    const Result<Table> table = Table::from_words(inputs, first, count);
    if (!table) {
        return table.refusal();
    }
    return decide(*table);
}

// Decides anything that Table::of takes. Refusals: those of Table::of.
template <class TT, detail::IfTable<TT> = 0> Result<Outcome> decide(const TT &words) noexcept {
    const Result<Table> table = Table::of(words);
    if (!table) {
        return table.refusal();
    }
    return decide(*table);
}

// The same on the rows that another such table, of as many inputs, says are cared for.
template <class TT, class Cares, detail::IfTable<TT> = 0, detail::IfTable<Cares> = 0>
Result<Outcome> decide(const TT &words, const Cares &cares) noexcept {
    const Result<Table> table = Table::of(words, cares);
    if (!table) {
        return table.refusal();
    }
    return decide(*table);
}

// The fresh job of a table, to be carried on by budgets of one's own; or its witness, if an input is binate; or a gate of weights 0, if no
// row is cared for.
inline Verdict fresh(const Table &table) noexcept {
    detail::Answer out;
    const Bytes record = table.record();
    const std::int64_t length = threshold_fresh(record.data(), record.size(), out.data(), out.size());
    return (*detail::Maker::outcome(record, 1, out, length, 0)).verdict; // a fresh job that has ended stays so under any budget
}

inline Result<Outcome> Job::carry_on(std::uint32_t budget) const noexcept {
    detail::Answer out;
    std::uint32_t made = 0;
    const std::int64_t length = threshold_carry_on(bytes_.data(), length_, budget, out.data(), out.size(), &made);
    return detail::Maker::outcome(record(), budget, out, length, made);
}

} // namespace threshold

#endif
