// calcivorne.hpp: the calls of calcivorne.h for hosts in C++17 and later, with types. calcivorne.h is the manual: what each number, figure and field says
// stands there.
//
// Table, Scene and Output are views of bytes that the host keeps; they are made explicitly, of a pointer and a length or of a contiguous container, and not
// of a container that ends with the expression. Session and Offer own their bytes. So a mix-up of a call's arguments does not compile. No call throws or
// allocates; what makes a Session or an Offer allocates its bytes.
#ifndef CALCIVORNE_HPP
#define CALCIVORNE_HPP

#include <cstddef>
#include <cstdint>
#include <iterator>
#include <string_view>
#include <type_traits>
#include <utility>
#include <vector>
#if __cplusplus >= 202002L
#include <span>
#endif

#include "calcivorne.h"

namespace calcivorne {

// The numbers that calls give.
enum class Number : unsigned char {
    ok = CALCIVORNE_OK, scene_ends = CALCIVORNE_SCENE_ENDS, bad_byte = CALCIVORNE_BAD_BYTE, too_long = CALCIVORNE_TOO_LONG,
    end_unlike_start = CALCIVORNE_END_UNLIKE_START, bad_prefix = CALCIVORNE_BAD_PREFIX, attribute_twice = CALCIVORNE_ATTRIBUTE_TWICE,
    scene_too_long = CALCIVORNE_SCENE_TOO_LONG, finished = CALCIVORNE_FINISHED, table_length = CALCIVORNE_TABLE_LENGTH,
    table_field = CALCIVORNE_TABLE_FIELD, table_clash = CALCIVORNE_TABLE_CLASH, bad_session = CALCIVORNE_BAD_SESSION, too_deep = CALCIVORNE_TOO_DEEP,
    too_many_bindings = CALCIVORNE_TOO_MANY_BINDINGS, too_many_strands = CALCIVORNE_TOO_MANY_STRANDS, too_many_units = CALCIVORNE_TOO_MANY_UNITS,
    output_full = CALCIVORNE_OUTPUT_FULL, not_offered = CALCIVORNE_NOT_OFFERED, slice_too_short = CALCIVORNE_SLICE_TOO_SHORT
};

// The kinds of records.
enum class Kind : unsigned char {
    open = CALCIVORNE_KIND_OPEN, start = CALCIVORNE_KIND_START, attribute = CALCIVORNE_KIND_ATTRIBUTE, value = CALCIVORNE_KIND_VALUE,
    text = CALCIVORNE_KIND_TEXT, end = CALCIVORNE_KIND_END, close = CALCIVORNE_KIND_CLOSE
};

// What a number says, in a few words for messages.
[[nodiscard]] constexpr const char* what(Number number) noexcept {
    switch (number) {
    case Number::ok: return "nothing is refused";
    case Number::scene_ends: return "the scene ends, and nothing else is wrong so far";
    case Number::bad_byte: return "a byte that cannot stand there";
    case Number::too_long: return "the 65th byte of a name's part, or a 17th attribute";
    case Number::end_unlike_start: return "an end tag's name is not that of the open element";
    case Number::bad_prefix: return "a prefix that is not bound, or a declaration that is not allowed";
    case Number::attribute_twice: return "an attribute stands twice";
    case Number::scene_too_long: return "the scene is over 16,777,215 bytes";
    case Number::finished: return "finished: the root has closed";
    case Number::table_length: return "the table is under 4 bytes, or not of the length that it needs";
    case Number::table_field: return "a field of the table is out of range";
    case Number::table_clash: return "the table repeats a URI or a rule, lists that of xml, or two of its rules contradict";
    case Number::bad_session: return "the bytes hold no session, or one that does not fit this table and scene";
    case Number::too_deep: return "a 65th open element";
    case Number::too_many_bindings: return "a 65th open declaration";
    case Number::too_many_strands: return "a 17th strand";
    case Number::too_many_units: return "a unit past 65,535";
    case Number::output_full: return "the event's records exceed the output";
    case Number::not_offered: return "the session, or the scene's length, is not the offer's";
    case Number::slice_too_short: return "the session or the offer has too few bytes";
    }
    return "a number that this header does not know";
}

// A kind's name.
[[nodiscard]] constexpr const char* what(Kind kind) noexcept {
    constexpr const char* names[] = {"open", "start", "attribute", "value", "text", "end", "close"};
    return kind <= Kind::close ? names[static_cast<int>(kind)] : "a kind that this header does not know";
}

namespace detail {

// Stands for a slice of no bytes.
inline unsigned char none = 0;

// Views: a temporary one may be taken, since the bytes are not its own.
template <class> inline constexpr bool borrowed = false;
template <> inline constexpr bool borrowed<std::string_view> = true;
#if __cplusplus >= 202002L
template <class T, std::size_t N> inline constexpr bool borrowed<std::span<T, N>> = true;
#endif

template <class T> inline constexpr bool is_byte = std::is_same_v<T, unsigned char> || std::is_same_v<T, char> || std::is_same_v<T, std::byte>;

// What a contiguous container has, const where it may not be written; void for all else.
template <class Bytes, class = void> struct ElementOf { using type = void; };
template <class Bytes> struct ElementOf<Bytes, std::void_t<decltype(std::data(std::declval<Bytes&>())), decltype(std::size(std::declval<Bytes&>()))>> {
    using type = std::remove_pointer_t<decltype(std::data(std::declval<Bytes&>()))>;
};
template <class Bytes> using Element = typename ElementOf<std::remove_reference_t<Bytes>>::type;

// Containers of bytes; no array of char, which may be a literal with a zero behind it: write "..."sv.
template <class Bytes> inline constexpr bool holds_bytes =
    is_byte<std::remove_cv_t<Element<Bytes>>> && !(std::is_array_v<std::remove_reference_t<Bytes>> && std::is_same_v<std::remove_cv_t<Element<Bytes>>, char>);

// Those whose bytes may be viewed as so many Byte, and are there behind the expression.
template <class Bytes, class Byte> inline constexpr bool lends = holds_bytes<Bytes> && (std::is_const_v<Byte> || !std::is_const_v<Element<Bytes>>) &&
    (std::is_lvalue_reference_v<Bytes> || borrowed<std::remove_cv_t<Bytes>>);

// A view of bytes; Self makes it a type of its own. NULL is a slice of no bytes.
template <class Self, class Byte> class View {
public:
    View() noexcept : View(nullptr, 0) {}
    explicit View(Byte* at, std::size_t length) noexcept : at_(at == nullptr ? &none : at), length_(at == nullptr ? 0 : length) {}
    template <class Bytes, std::enable_if_t<lends<Bytes, Byte>, int> = 0>
    explicit View(Bytes&& bytes) noexcept : View(reinterpret_cast<Byte*>(std::data(bytes)), std::size(bytes)) {}

    [[nodiscard]] Byte* at() const noexcept { return at_; }
    [[nodiscard]] std::size_t length() const noexcept { return length_; }
    [[nodiscard]] std::string_view bytes() const noexcept { return {reinterpret_cast<const char*>(at_), length_}; }

private:
    Byte* at_;
    std::size_t length_;
};

// Bytes that are owned; Self makes them a type of their own. Any bytes may be stored, of any length: the calls judge them.
template <class Self> class Owned {
public:
    [[nodiscard]] static Self stored(std::vector<unsigned char> bytes) noexcept {
        Self made;
        made.bytes_ = std::move(bytes);
        return made;
    }
    [[nodiscard]] static Self stored(const unsigned char* at, std::size_t length) {
        return stored(at == nullptr ? std::vector<unsigned char>() : std::vector<unsigned char>(at, at + length));
    }
    template <class Bytes, std::enable_if_t<holds_bytes<Bytes>, int> = 0> [[nodiscard]] static Self stored(const Bytes& bytes) {
        return stored(reinterpret_cast<const unsigned char*>(std::data(bytes)), std::size(bytes));
    }

    [[nodiscard]] const std::vector<unsigned char>& bytes() const& noexcept { return bytes_; }
    [[nodiscard]] std::vector<unsigned char> bytes() && noexcept { return std::move(bytes_); }
    [[nodiscard]] unsigned char* at() noexcept { return bytes_.empty() ? &none : bytes_.data(); }
    [[nodiscard]] const unsigned char* at() const noexcept { return bytes_.empty() ? &none : bytes_.data(); }
    [[nodiscard]] std::size_t length() const noexcept { return bytes_.size(); }

private:
    std::vector<unsigned char> bytes_;
};

// A field of a record: so many bytes, the most significant first.
template <int Bytes> [[nodiscard]] constexpr std::uint32_t field(const unsigned char* at) noexcept {
    std::uint32_t value = 0;
    for (int i = 0; i < Bytes; i++) value = value << 8 | at[i];
    return value;
}

}  // namespace detail

struct Table : detail::View<Table, const unsigned char> { using View::View; };
struct Scene : detail::View<Scene, const unsigned char> { using View::View; };
struct Output : detail::View<Output, unsigned char> { using View::View; };

class Session : public detail::Owned<Session> {
    friend detail::Owned<Session>;
    Session() = default;

public:
    // At the start of a scene.
    [[nodiscard]] static Session fresh() {
        Session made = stored(std::vector<unsigned char>(calcivorne_session_size()));
        calcivorne_fresh(made.at(), made.length());
        return made;
    }
};

class Offer : public detail::Owned<Offer> {
    friend detail::Owned<Offer>;
    Offer() = default;

public:
    // An offer of nothing, for ask to write to.
    [[nodiscard]] static Offer none() { return stored(std::vector<unsigned char>(calcivorne_offer_size())); }
};

struct [[nodiscard]] Answer {
    Number number;
    std::size_t place, events, records;
};

struct [[nodiscard]] Figures {
    Number number;
    std::size_t place, records, units, strands, depth;
};

// A record. Of an open record_class is the schema, and length is 1 for an attribute unit.
struct Record {
    std::uint32_t unit;
    Kind kind;
    unsigned char record_class;
    std::uint32_t offset, length, uri_offset, uri_length;

    // Of CALCIVORNE_RECORD_SIZE bytes.
    [[nodiscard]] static constexpr Record decoded(const unsigned char* at) noexcept {
        return {detail::field<2>(at), static_cast<Kind>(at[2]), at[3], detail::field<3>(at + 4), detail::field<3>(at + 7), detail::field<3>(at + 10),
                detail::field<3>(at + 13)};
    }
};

// The records of an output, or of any bytes, as a range. A record is decoded when it is read.
class Records : detail::View<Records, const unsigned char> {
public:
    class Iterator {
    public:
        using iterator_category = std::random_access_iterator_tag;
        using value_type = Record;
        using difference_type = std::ptrdiff_t;
        using reference = Record;
        struct pointer {
            Record record;
            const Record* operator->() const noexcept { return &record; }
        };

        Iterator() noexcept = default;
        explicit Iterator(const unsigned char* at) noexcept : at_(at) {}
        Record operator*() const noexcept { return Record::decoded(at_); }
        pointer operator->() const noexcept { return {**this}; }
        Record operator[](difference_type by) const noexcept { return *(*this + by); }
        Iterator& operator+=(difference_type by) noexcept { at_ += by * CALCIVORNE_RECORD_SIZE; return *this; }
        Iterator& operator-=(difference_type by) noexcept { return *this += -by; }
        Iterator& operator++() noexcept { return *this += 1; }
        Iterator& operator--() noexcept { return *this += -1; }
        Iterator operator++(int) noexcept { Iterator old = *this; ++*this; return old; }
        Iterator operator--(int) noexcept { Iterator old = *this; --*this; return old; }
        friend Iterator operator+(Iterator from, difference_type by) noexcept { return from += by; }
        friend Iterator operator+(difference_type by, Iterator from) noexcept { return from += by; }
        friend Iterator operator-(Iterator from, difference_type by) noexcept { return from -= by; }
        friend difference_type operator-(Iterator a, Iterator b) noexcept { return (a.at_ - b.at_) / CALCIVORNE_RECORD_SIZE; }
        friend bool operator==(Iterator a, Iterator b) noexcept { return a.at_ == b.at_; }
        friend bool operator!=(Iterator a, Iterator b) noexcept { return a.at_ != b.at_; }
        friend bool operator<(Iterator a, Iterator b) noexcept { return a.at_ < b.at_; }
        friend bool operator>(Iterator a, Iterator b) noexcept { return a.at_ > b.at_; }
        friend bool operator<=(Iterator a, Iterator b) noexcept { return a.at_ <= b.at_; }
        friend bool operator>=(Iterator a, Iterator b) noexcept { return a.at_ >= b.at_; }

    private:
        const unsigned char* at_ = nullptr;
    };
    using iterator = Iterator;
    using const_iterator = Iterator;
    using value_type = Record;

    // The whole records of bytes.
    using View::View;
    // Those that a call wrote; no more than the output has room for.
    Records(Output output, const Answer& answer) noexcept
        : View(output.at(), answer.records < output.length() / CALCIVORNE_RECORD_SIZE ? answer.records * CALCIVORNE_RECORD_SIZE : output.length()) {}

    using View::bytes;
    [[nodiscard]] std::size_t size() const noexcept { return length() / CALCIVORNE_RECORD_SIZE; }
    [[nodiscard]] bool empty() const noexcept { return size() == 0; }
    [[nodiscard]] Iterator begin() const noexcept { return Iterator(at()); }
    [[nodiscard]] Iterator end() const noexcept { return begin() + static_cast<std::ptrdiff_t>(size()); }
    [[nodiscard]] Record operator[](std::size_t number) const noexcept { return Record::decoded(at() + number * CALCIVORNE_RECORD_SIZE); }
};

// Where a URI stands, and its bytes there, in the host's table or scene.
enum class Source : unsigned char { table = 0, scene = 1 };
struct [[nodiscard]] Uri {
    Source source;
    std::size_t offset, length;
    std::string_view bytes;
};

// The name, value or text of a record, in the host's scene; of an open and a close none, nor where the scene does not have it.
[[nodiscard]] inline std::string_view bytes(Scene scene, const Record& record) noexcept {
    bool has = record.kind != Kind::open && record.kind != Kind::close && record.offset <= scene.length();
    return has ? scene.bytes().substr(record.offset, record.length) : std::string_view();
}

namespace detail {

// The answer of a call that is handed four numbers to write.
template <class Call> inline Answer answer(Call call) noexcept {
    calcivorne_number four[4] = {};
    unsigned char number = call(four);
    return {static_cast<Number>(number), four[1], four[2], four[3]};
}

}  // namespace detail

// The version of the library that is linked or loaded; CALCIVORNE_VERSION is that of the headers.
[[nodiscard]] inline unsigned long version() noexcept { return calcivorne_version(); }

[[nodiscard]] inline std::size_t session_size() noexcept { return calcivorne_session_size(); }

[[nodiscard]] inline std::size_t offer_size() noexcept { return calcivorne_offer_size(); }

inline Answer judge(Table table) noexcept {
    return detail::answer([&](auto four) { return calcivorne_judge(table.at(), table.length(), four); });
}

// A whole scene.
inline Answer run(Table table, Scene scene, Output output) noexcept {
    return detail::answer([&](auto four) {
        return calcivorne_run(table.at(), table.length(), scene.at(), scene.length(), output.at(), output.length(), four);
    });
}

// What a run will need: an output of CALCIVORNE_RECORD_SIZE bytes for each of the records.
inline Figures forecast(Table table, Scene scene) noexcept {
    calcivorne_number six[6] = {};
    unsigned char number = calcivorne_forecast(table.at(), table.length(), scene.at(), scene.length(), six);
    return {static_cast<Number>(number), six[1], six[2], six[3], six[4], six[5]};
}

// One event.
inline Answer step(Table table, Scene scene, Session& session, Output output) noexcept {
    return detail::answer([&](auto four) {
        return calcivorne_step(table.at(), table.length(), scene.at(), scene.length(), session.at(), session.length(), output.at(), output.length(), four);
    });
}

// At most so many events.
inline Answer advance(Table table, Scene scene, Session& session, std::size_t most, Output output) noexcept {
    return detail::answer([&](auto four) {
        return calcivorne_advance(table.at(), table.length(), scene.at(), scene.length(), session.at(), session.length(), most, output.at(), output.length(), four);
    });
}

// As many events as there are.
inline Answer advance(Table table, Scene scene, Session& session, Output output) noexcept {
    return advance(table, scene, session, static_cast<std::size_t>(-1), output);
}

// What the next event would give. The offer is written but with slice_too_short.
inline Answer ask(Table table, Scene scene, const Session& session, Offer& offer) noexcept {
    return detail::answer([&](auto four) {
        return calcivorne_ask(table.at(), table.length(), scene.at(), scene.length(), session.at(), session.length(), offer.at(), offer.length(), four);
    });
}

// The event that was asked about.
inline Answer commit(const Offer& offer, Session& session, Table table, Scene scene, Output output) noexcept {
    return detail::answer([&](auto four) {
        return calcivorne_commit(offer.at(), offer.length(), session.at(), session.length(), table.at(), table.length(), scene.at(), scene.length(), output.at(),
                                 output.length(), four);
    });
}

// Where the URI of a class and a span stands.
inline Uri uri(Table table, Scene scene, unsigned char record_class, std::size_t uri_offset, std::size_t uri_length) noexcept {
    calcivorne_number three[3] = {};
    calcivorne_uri(table.at(), table.length(), scene.at(), scene.length(), record_class, uri_offset, uri_length, three);
    Source source = static_cast<Source>(three[0]);
    return {source, three[1], three[2], (source == Source::table ? table.bytes() : scene.bytes()).substr(three[1], three[2])};
}

// The namespace's URI of a record; of an open, which has a schema and no class, that of no namespace.
inline Uri uri(Table table, Scene scene, const Record& record) noexcept {
    unsigned char record_class = record.kind == Kind::open ? static_cast<unsigned char>(CALCIVORNE_CLASS_NONE) : record.record_class;
    return uri(table, scene, record_class, record.uri_offset, record.uri_length);
}

}  // namespace calcivorne

#endif
