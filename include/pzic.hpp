// pzic.hpp: local time by the files of the time zone database, for C++17: the calls of pzic.h with
// handles that free what they hold. Instants and local times are seconds from 1970-01-01T00:00:00, of UT
// and on the zone's clocks, and UT offsets are seconds, positive east. pzic.h says more of each call.
//
// Nothing of its own throws: a function that may give nothing returns a result, which says why. What
// returns a string or a vector throws what these do where memory is refused.
//
// A zone, files and rows that a function gave hold something until they are moved from; a moved-from
// one answers status::no_handle, nothing, 0 or an empty text.
#ifndef PZIC_HPP
#define PZIC_HPP

#include <algorithm>
#include <cstdint>
#include <filesystem>
#include <optional>
#include <string>
#include <string_view>
#include <system_error>
#include <utility>
#include <vector>

#include "pzic.h"
#if __has_include(<unistd.h>)
#include "pzic_tree.h"
#endif

namespace pzic {

// What a call answers, as pzic.h says of PZIC_OK and so on.
enum class status : std::int32_t {
    ok = PZIC_OK,
    unspecified = PZIC_UNSPECIFIED,
    no_memory = PZIC_NO_MEMORY,
    bad_file = PZIC_BAD_FILE,
    no_handle = PZIC_NO_HANDLE,
    lengths = PZIC_LENGTHS,
    bad_source = PZIC_BAD_SOURCE,
    no_such = PZIC_NO_SUCH,
    bad_row = PZIC_BAD_ROW,
    out_of_range = PZIC_OUT_OF_RANGE,
    gap = PZIC_GAP,
    fold = PZIC_FOLD,
    unreadable = PZIC_UNREADABLE,
    bad_name = PZIC_BAD_NAME,
    unfit = PZIC_UNFIT,
    taken = PZIC_TAKEN
};

// The check that the bytes of a file fail first.
enum class reason : std::uint32_t {
    none = 0,
    too_short = PZIC_REASON_SHORT,
    magic = PZIC_REASON_MAGIC,
    version = PZIC_REASON_VERSION,
    headers_differ = PZIC_REASON_HEADERS_DIFFER,
    counts = PZIC_REASON_COUNTS,
    leap_seconds = PZIC_REASON_LEAP_SECONDS,
    times_not_rising = PZIC_REASON_TIMES_NOT_RISING,
    type_index = PZIC_REASON_TYPE_INDEX,
    designation = PZIC_REASON_DESIGNATION,
    type_record = PZIC_REASON_TYPE_RECORD,
    indicators = PZIC_REASON_INDICATORS,
    footer = PZIC_REASON_FOOTER,
    trailing_bytes = PZIC_REASON_TRAILING_BYTES,
    too_large = PZIC_REASON_TOO_LARGE
};

// The flags of an item of an offset_array; 0 is standard time.
enum flags : std::uint8_t { daylight = PZIC_DAYLIGHT, left_open = PZIC_OPEN, no_zone = PZIC_NO_ZONE };

// What to take for a local time in a gap or in a fold.
enum class disambiguation : std::uint32_t {
    reject = PZIC_REJECT,
    earlier = PZIC_EARLIER,
    later = PZIC_LATER,
    compatible = PZIC_COMPATIBLE
};

// What to take for a time of day in a gap or in a fold; by skip, none in a gap and the first of a fold.
enum class policy : std::uint32_t {
    earlier = PZIC_EARLIER,
    later = PZIC_LATER,
    compatible = PZIC_COMPATIBLE,
    skip = PZIC_SKIP
};

// A time of day on days of the week.
struct schedule {
    // The time of day on the zone's clocks, in seconds since midnight, 0 to 86,399.
    std::uint32_t seconds;
    // The sum of some of PZIC_MONDAY and so on.
    std::uint32_t weekdays = PZIC_EVERY_DAY;
    pzic::policy policy = pzic::policy::compatible;
};

// Why a call gave nothing.
struct error {
    pzic::status status = pzic::status::ok;
    // By status::bad_file the check that the bytes fail first, where it is known.
    pzic::reason reason = pzic::reason::none;
    // By status::bad_source the first fault, and else all 0.
    pzic_fault fault{};
};

// A value, or why there is none. Only where it is true there is a value to be taken by * and ->.
template <class T>
class [[nodiscard]] result {
public:
    result(T &&value) noexcept : value_(std::move(value)) {}
    result(pzic::error why) noexcept : error_(why) {}
    result(pzic::status why) noexcept { error_.status = why; }

    explicit operator bool() const noexcept { return value_.has_value(); }
    T &operator*() & noexcept { return *value_; }
    const T &operator*() const & noexcept { return *value_; }
    T &&operator*() && noexcept { return std::move(*value_); }
    T *operator->() noexcept { return &*value_; }
    const T *operator->() const noexcept { return &*value_; }

    // Returns the value, or else another.
    template <class Other>
    T value_or(Other &&other) const & {
        return value_ ? *value_ : static_cast<T>(std::forward<Other>(other));
    }

    // Returns status::ok where there is a value, and else why there is none.
    pzic::status status() const noexcept { return error_.status; }
    const pzic::error &error() const noexcept { return error_; }

private:
    std::optional<T> value_;
    pzic::error error_;
};

// Returns the version of the library that the program runs with, as PZIC_VERSION counts.
inline std::uint32_t version() noexcept { return pzic_version(); }

// Functions of this header alone.
namespace detail {

// Returns what a call of pzic.h copies into room, at its whole length, and where it copies nothing an empty text.
template <class Call>
std::string copied(Call call) {
    std::size_t length = 0;
    if (call(nullptr, std::size_t{0}, &length) != PZIC_OK) return {};
    std::string made(length, '\0');
    call(reinterpret_cast<std::uint8_t *>(made.data()), length, &length);
    return made;
}

// Returns the bytes of a text, as pzic.h has them.
inline const std::uint8_t *bytes_of(std::string_view text) noexcept {
    return reinterpret_cast<const std::uint8_t *>(text.data());
}

}  // namespace detail

// Returns the name of a reason, as the program prints it, and an empty text for reason::none.
inline std::string name_of(reason why) {
    return detail::copied([why](std::uint8_t *room, std::size_t size, std::size_t *length) {
        return pzic_name_of_reason(static_cast<std::uint32_t>(why), room, size, length);
    });
}

// Returns the name of a fault's kind, 1 to 45, as the program prints it, and an empty text where none has
// the number.
inline std::string name_of_fault(std::uint32_t kind) {
    return detail::copied([kind](std::uint8_t *room, std::size_t size, std::size_t *length) {
        return pzic_name_of_fault(kind, room, size, length);
    });
}

// A handle with one owner, which frees what it holds. It can be moved, and then holds nothing. A const one
// may be read by any number of threads at once.
class handle {
public:
    handle() noexcept = default;
    handle(handle &&other) noexcept : raw_(std::exchange(other.raw_, pzic_handle{})) {}
    handle &operator=(handle &&other) noexcept {
        handle moved(std::move(other));
        std::swap(raw_, moved.raw_);
        return *this;
    }
    handle(const handle &) = delete;
    handle &operator=(const handle &) = delete;
    ~handle() { pzic_free(&raw_); }

    explicit operator bool() const noexcept { return raw_.kind != 0; }
    const pzic_handle *get() const noexcept { return &raw_; }
    pzic_handle *get() noexcept { return &raw_; }

private:
    pzic_handle raw_ = PZIC_HANDLE_INIT;
};

// Local time at an instant.
struct state {
    // The UT offset, within 25:59:59 either way.
    std::int32_t offset;
    bool daylight;
    // The first 16 bytes of the abbreviation.
    std::string name;
};

// Local time, and the first and the last instant, both included, of the time in which it is the same.
struct span {
    // Nothing where the file leaves local time open.
    std::optional<pzic::state> state;
    std::int64_t first, last;
};

// UT offsets at instants, and for each 0 or one of pzic::flags; by any but daylight the offset is 0.
struct offset_array {
    std::vector<std::int32_t> offsets;
    std::vector<std::uint8_t> flags;
};

// The instants that are meant by local times, and for each a number of pzic::status: ok; or gap, fold,
// unspecified, out_of_range or, of files, no_such, by which the instant is 0.
struct instant_array {
    std::vector<std::int64_t> instants;
    std::vector<std::uint8_t> statuses;
};

// A zone.
class zone {
public:
    // Reads the bytes of a TZif file of version 2 or 3, at most 1,048,576. Where they are none,
    // status::bad_file and the reason; else status::no_memory.
    static result<zone> read(const std::uint8_t *bytes, std::size_t length) noexcept {
        zone made;
        std::uint32_t why = 0;
        const std::int32_t answer = pzic_zone_read(bytes, length, made.handle_.get(), &why);
        return given(std::move(made), answer, why);
    }
    static result<zone> read(std::string_view bytes) noexcept { return read(detail::bytes_of(bytes), bytes.size()); }

    // Returns one more owner of the same, or status::no_memory.
    result<zone> share() const noexcept {
        zone made;
        const std::int32_t answer = pzic_share(handle_.get(), made.handle_.get());
        return given(std::move(made), answer);
    }

    // Returns local time at an instant, or status::unspecified where the file leaves it open.
    result<pzic::state> at(std::int64_t instant) const {
        pzic_state answer;
        const std::int32_t why = pzic_zone_at(handle_.get(), instant, &answer);
        if (why != PZIC_OK) return static_cast<pzic::status>(why);
        return pzic::state{answer.offset, answer.daylight != 0, answer.name};
    }

    // Returns local time at an instant, and the instants round it at which it is the same.
    pzic::span span(std::int64_t instant) const {
        pzic_state answer;
        pzic::span made{std::nullopt, 0, -1};
        if (pzic_zone_span(handle_.get(), instant, &answer, &made.first, &made.last) == PZIC_OK)
            made.state = pzic::state{answer.offset, answer.daylight != 0, answer.name};
        return made;
    }

    // Returns the date, the time of day and local time at an instant; those of UT, under an empty
    // abbreviation, where the file leaves local time open.
    pzic_civil civil(std::int64_t instant) const noexcept {
        pzic_civil answer{};
        pzic_zone_civil(handle_.get(), instant, &answer);
        return answer;
    }

    // Returns the first change of local time after an instant, or nothing where there is none.
    std::optional<std::int64_t> next_change(std::int64_t instant) const noexcept {
        std::int64_t change;
        if (pzic_zone_next_change(handle_.get(), instant, &change) != PZIC_OK) return std::nullopt;
        return change;
    }

    // Returns the last change before an instant, or nothing where there is none.
    std::optional<std::int64_t> previous_change(std::int64_t instant) const noexcept {
        std::int64_t change;
        if (pzic_zone_previous_change(handle_.get(), instant, &change) != PZIC_OK) return std::nullopt;
        return change;
    }

    // Returns the changes after the first instant and up to the last, in order.
    std::vector<std::int64_t> changes(std::int64_t first, std::int64_t last) const {
        std::vector<std::int64_t> made;
        std::int64_t room[64];
        std::size_t count = 0;
        do {
            pzic_zone_changes(handle_.get(), first, last, room, 64, &count);
            made.insert(made.end(), room, room + count);
            if (count > 0) first = room[count - 1];
        } while (count == 64);
        return made;
    }

    // Writes the UT offsets at `count` instants, and for each 0 or one of pzic::flags, to arrays of as many.
    pzic::status offsets(const std::int64_t *instants, std::size_t count, std::int32_t *offsets,
                         std::uint8_t *flags) const noexcept {
        return static_cast<pzic::status>(
            pzic_zone_offsets(handle_.get(), instants, count, offsets, count, flags, count));
    }

    // Returns the UT offsets at instants, with flags.
    result<offset_array> offsets(const std::vector<std::int64_t> &instants) const {
        offset_array made{std::vector<std::int32_t>(instants.size()), std::vector<std::uint8_t>(instants.size())};
        const pzic::status answer = offsets(instants.data(), instants.size(), made.offsets.data(), made.flags.data());
        if (answer != pzic::status::ok) return answer;
        return made;
    }

    // Returns the instants at which clocks show a local time, or the gap that it is in; or
    // status::unspecified where the file leaves local time open, and status::out_of_range within 25:59:59
    // of an end of 64 bits.
    result<pzic_local_time> instants(std::int64_t local) const noexcept {
        pzic_local_time found;
        const std::int32_t answer = pzic_zone_instants(handle_.get(), local, &found);
        if (answer != PZIC_OK) return static_cast<pzic::status>(answer);
        return found;
    }

    // Returns the instant that is meant by a local time; or status::gap or fold, by disambiguation::reject
    // alone, and unspecified and out_of_range as above.
    result<std::int64_t> instant(std::int64_t local,
                                 disambiguation choice = disambiguation::reject) const noexcept {
        std::int64_t found;
        const std::int32_t answer =
            pzic_zone_instant(handle_.get(), static_cast<std::uint32_t>(choice), local, &found);
        if (answer != PZIC_OK) return static_cast<pzic::status>(answer);
        return found;
    }

    // Writes the instants that are meant by `count` local times, and the status of each, to arrays of as many.
    pzic::status instant_array(const std::int64_t *locals, std::size_t count, std::int64_t *instants,
                               std::uint8_t *statuses,
                               disambiguation choice = disambiguation::reject) const noexcept {
        return static_cast<pzic::status>(
            pzic_zone_instants_array(handle_.get(), static_cast<std::uint32_t>(choice), locals, count, instants,
                                     count, statuses, count));
    }

    // Returns the instants that are meant by local times, with the status of each.
    result<pzic::instant_array> instant_array(const std::vector<std::int64_t> &locals,
                                              disambiguation choice = disambiguation::reject) const {
        pzic::instant_array made{std::vector<std::int64_t>(locals.size()), std::vector<std::uint8_t>(locals.size())};
        const pzic::status answer =
            instant_array(locals.data(), locals.size(), made.instants.data(), made.statuses.data(), choice);
        if (answer != pzic::status::ok) return answer;
        return made;
    }

    // Returns the least instant after one and up to another at which clocks show the time of day, or that is meant by
    // it; or status::no_such where there is none, and status::out_of_range where the schedule is none.
    result<std::int64_t> next_local(const schedule &wanted, std::int64_t after, std::int64_t until) const noexcept {
        const pzic_schedule asked = asked_of(wanted, after, until);
        std::int64_t found;
        const std::int32_t answer = pzic_zone_next_local(handle_.get(), &asked, &found);
        if (answer != PZIC_OK) return static_cast<pzic::status>(answer);
        return found;
    }

    // Returns all of them, in order; or status::out_of_range where the schedule is none.
    result<std::vector<std::int64_t>> next_locals(const schedule &wanted, std::int64_t after,
                                                  std::int64_t until) const {
        pzic_schedule asked = asked_of(wanted, after, until);
        std::vector<std::int64_t> made;
        std::int64_t room[64];
        std::size_t count = 0;
        do {
            const std::int32_t answer = pzic_zone_next_locals(handle_.get(), &asked, room, 64, &count);
            if (answer != PZIC_OK) return static_cast<pzic::status>(answer);
            made.insert(made.end(), room, room + count);
            if (count > 0) asked.after = room[count - 1];
        } while (count == 64);
        return made;
    }

    const pzic_handle *get() const noexcept { return handle_.get(); }

private:
    friend class files;
    friend class tree;
    zone() noexcept = default;

    static pzic_schedule asked_of(const schedule &wanted, std::int64_t after, std::int64_t until) noexcept {
        return {after, until, wanted.seconds, wanted.weekdays, static_cast<std::uint32_t>(wanted.policy)};
    }

    static result<zone> given(zone made, std::int32_t answer, std::uint32_t why = 0) noexcept {
        if (answer == PZIC_OK) return made;
        pzic::error refused;
        refused.status = static_cast<pzic::status>(answer);
        if (answer == PZIC_BAD_FILE) refused.reason = static_cast<pzic::reason>(why);
        return refused;
    }

    handle handle_;
};

// The rows of a column, or the lines of a comparison.
class rows {
public:
    // Returns how many there are: rows without the header, and with those that are left out, or lines after
    // the first.
    std::uint64_t size() const noexcept {
        std::uint64_t count = 0;
        pzic_rows_len(handle_.get(), &count);
        return count;
    }

    // Returns the bytes of all.
    std::string text() const {
        return detail::copied([this](std::uint8_t *room, std::size_t size, std::size_t *length) {
            return pzic_rows_text(handle_.get(), room, size, length);
        });
    }

    // Returns the faults of rows, in order.
    std::vector<pzic_row_fault> faults() const {
        std::size_t count = 0;
        pzic_rows_faults(handle_.get(), nullptr, 0, &count);
        if (count == 0 && ended_) return {*ended_};
        std::vector<pzic_row_fault> made(count);
        pzic_rows_faults(handle_.get(), made.data(), count, &count);
        return made;
    }

    // Returns the fault that ended the run, or nothing where the column was converted to its end.
    std::optional<pzic_row_fault> ended_by() const noexcept { return ended_; }

    const pzic_handle *get() const noexcept { return handle_.get(); }

private:
    friend class files;
    rows() noexcept = default;
    handle handle_;
    std::optional<pzic_row_fault> ended_;
};

// The files of a source or of a folder, with numbers from 0.
class files {
public:
    // Compiles texts of Rule, Zone, continuation and Link lines together, or one text. Where one has a fault,
    // status::bad_source and the first fault; else status::no_memory.
    static result<files> compile_all(const std::vector<std::string_view> &texts) {
        std::string all;
        std::vector<std::size_t> lengths;
        for (const std::string_view text : texts) {
            all.append(text);
            lengths.push_back(text.size());
        }
        return compile(all, lengths.data(), lengths.size());
    }
    static result<files> compile(std::string_view text) noexcept {
        const std::size_t length = text.size();
        return compile(text, &length, 1);
    }

    // Makes files of names and of the bytes of TZif files that were read. Some may be left out: `statuses`,
    // if they are wanted, say why of each, by a number of pzic::status: bad_name, taken, bad_file or unfit, and
    // ok of one that is taken. Returns status::no_memory where memory is refused to the library.
    static result<files> of(const std::vector<std::pair<std::string_view, std::string_view>> &given,
                            std::vector<std::uint8_t> *statuses = nullptr) {
        files made;
        std::string texts;
        std::vector<std::size_t> lengths;
        std::vector<std::uint8_t> own(given.size());
        for (const auto &[name, bytes] : given) {
            texts.append(name).append(bytes);
            lengths.push_back(name.size());
            lengths.push_back(bytes.size());
        }
        const std::int32_t answer = pzic_files_of(detail::bytes_of(texts), texts.size(), lengths.data(), lengths.size(),
                                                  own.data(), own.size(), made.handle_.get());
        if (answer != PZIC_OK) return static_cast<pzic::status>(answer);
        if (statuses) *statuses = std::move(own);
        return made;
    }

    // Returns the number of files.
    std::size_t size() const noexcept {
        std::size_t count = 0;
        pzic_files_len(handle_.get(), &count);
        return count;
    }

    // Returns the name of the file of a number, or its bytes, and an empty text where no file has the number.
    std::string name(std::size_t number) const {
        return detail::copied([this, number](std::uint8_t *room, std::size_t size, std::size_t *length) {
            return pzic_files_name(handle_.get(), number, room, size, length);
        });
    }
    std::string bytes(std::size_t number) const {
        return detail::copied([this, number](std::uint8_t *room, std::size_t size, std::size_t *length) {
            return pzic_files_bytes(handle_.get(), number, room, size, length);
        });
    }

    // Returns the number of the file of a name, or nothing where no file has it.
    std::optional<std::size_t> number(std::string_view name) const noexcept {
        std::size_t found;
        if (pzic_files_find(handle_.get(), detail::bytes_of(name), name.size(), &found) != PZIC_OK) return std::nullopt;
        return found;
    }

    // Returns the zone of the file of a number or of a name; or status::no_such where no file has it, and
    // status::no_memory.
    result<pzic::zone> zone(std::size_t number) const noexcept {
        pzic::zone made;
        const std::int32_t answer = pzic_zone_of(handle_.get(), number, made.handle_.get());
        return pzic::zone::given(std::move(made), answer);
    }
    result<pzic::zone> zone(std::string_view name) const noexcept {
        std::size_t found = 0;
        const std::int32_t answer = pzic_files_find(handle_.get(), detail::bytes_of(name), name.size(), &found);
        if (answer != PZIC_OK) return static_cast<pzic::status>(answer);
        return zone(found);
    }

    // Writes the UT offsets at `count` instants, each by the file of a number, and for each 0 or one of
    // pzic::flags, to arrays of as many.
    pzic::status offsets(const std::uint32_t *zones, const std::int64_t *instants, std::size_t count,
                         std::int32_t *offsets, std::uint8_t *flags) const noexcept {
        return static_cast<pzic::status>(pzic_files_offsets(handle_.get(), zones, count, instants, count,
                                                            offsets, count, flags, count));
    }

    // Returns the UT offsets at instants, each by the file of a number, with flags; or status::lengths where
    // the numbers aren't as many as the instants.
    result<offset_array> offsets(const std::vector<std::uint32_t> &zones,
                                 const std::vector<std::int64_t> &instants) const {
        if (zones.size() != instants.size()) return pzic::status::lengths;
        offset_array made{std::vector<std::int32_t>(instants.size()), std::vector<std::uint8_t>(instants.size())};
        const pzic::status answer =
            offsets(zones.data(), instants.data(), instants.size(), made.offsets.data(), made.flags.data());
        if (answer != pzic::status::ok) return answer;
        return made;
    }

    // Returns the instants that are meant by local times, each by the file of a number, with the status of each:
    // no_such where no file has the number; or status::lengths where the numbers aren't as many as the local times.
    result<pzic::instant_array> instants(const std::vector<std::uint32_t> &zones,
                                         const std::vector<std::int64_t> &locals,
                                         disambiguation choice = disambiguation::reject) const {
        pzic::instant_array made{std::vector<std::int64_t>(locals.size()), std::vector<std::uint8_t>(locals.size())};
        const std::int32_t answer = pzic_files_instants(
            handle_.get(), static_cast<std::uint32_t>(choice), zones.data(), zones.size(), locals.data(),
            locals.size(), made.instants.data(), made.instants.size(), made.statuses.data(), made.statuses.size());
        if (answer != PZIC_OK) return static_cast<pzic::status>(answer);
        return made;
    }

    // Returns the abbreviations at instants, each by the file of a number, and NULs where no file has it; or
    // status::lengths where the numbers aren't as many as the instants.
    result<std::vector<pzic_abbreviation>> abbreviations(const std::vector<std::uint32_t> &zones,
                                                         const std::vector<std::int64_t> &instants) const {
        std::vector<pzic_abbreviation> made(instants.size());
        const std::int32_t answer = pzic_files_abbreviations(
            handle_.get(), zones.data(), zones.size(), instants.data(), instants.size(), made.data(), made.size());
        if (answer != PZIC_OK) return static_cast<pzic::status>(answer);
        return made;
    }

    // Returns the rows of a column of names and instants, up to the first fault; or status::no_memory.
    result<pzic::rows> rows(std::string_view column) const noexcept {
        pzic::rows made;
        pzic_row_fault fault;
        const std::int32_t answer =
            pzic_rows(handle_.get(), detail::bytes_of(column), column.size(), made.handle_.get(), &fault);
        if (answer == PZIC_BAD_ROW) made.ended_ = fault;
        else if (answer != PZIC_OK) return static_cast<pzic::status>(answer);
        return made;
    }

    // Returns the rows of a column by a layout, all in the zone of a name if one is given; or
    // status::no_such where the layout has a number that nothing has or the name isn't UTF-8, lengths where
    // the column is too long, and no_memory.
    result<pzic::rows> rows(std::string_view column, const pzic_layout &layout, std::string_view name = {}) const {
        pzic::rows made;
        const std::int32_t answer = pzic_rows_by(handle_.get(), &layout, detail::bytes_of(name), name.size(),
                                                 detail::bytes_of(column), column.size(), made.handle_.get());
        return made_by(answer, std::move(made));
    }

    // Returns the same by a layout with more options, of which a prefix that can't be one, a reserved number
    // that isn't 0, and fields beside a style are status::no_such too.
    result<pzic::rows> rows(std::string_view column, const pzic_row_layout &layout, std::string_view name = {}) const {
        pzic::rows made;
        const std::int32_t answer = pzic_rows_with(handle_.get(), &layout, detail::bytes_of(name), name.size(),
                                                   detail::bytes_of(column), column.size(), made.handle_.get());
        return made_by(answer, std::move(made));
    }

    // Returns the lines that tell when the zones of newer files differ from these, and no text where none
    // does; or status::no_such where a number of the options or the order of their instants is wrong, and
    // no_memory.
    result<pzic::rows> diff(const files &newer,
                            const pzic_diff_options &options = PZIC_DIFF_OPTIONS_INIT) const noexcept {
        pzic::rows made;
        const std::int32_t answer = pzic_files_diff(handle_.get(), newer.get(), &options, made.handle_.get());
        if (answer != PZIC_OK) return static_cast<pzic::status>(answer);
        return made;
    }

    const pzic_handle *get() const noexcept { return handle_.get(); }

private:
    // Returns the rows that a call made, and what ended them.
    static result<pzic::rows> made_by(std::int32_t answer, pzic::rows made) {
        if (answer != PZIC_OK && answer != PZIC_BAD_ROW) return static_cast<pzic::status>(answer);
        if (answer == PZIC_BAD_ROW) made.ended_ = made.faults().back();
        return made;
    }

    files() noexcept = default;

    static result<files> compile(std::string_view texts, const std::size_t *lengths, std::size_t count) noexcept {
        files made;
        pzic::error refused;
        const std::int32_t answer = pzic_compile(detail::bytes_of(texts), texts.size(), lengths, count,
                                                 made.handle_.get(), &refused.fault);
        if (answer == PZIC_OK) return made;
        refused.status = static_cast<pzic::status>(answer);
        return refused;
    }

    handle handle_;
};

#ifdef PZIC_TREE_H
// A folder of TZif files, such as /usr/share/zoneinfo. Needs POSIX.
class tree {
public:
    explicit tree(std::string folder) noexcept : folder_(std::move(folder)) {}

    // Reads the zone of a name; or status::no_such where no file has it or can have it, unreadable where there is
    // no such folder or the file can't be read, of which errno says why, bad_file and the reason, and no_memory.
    result<pzic::zone> zone(const std::string &name) const noexcept {
        if (name.find('\0') != std::string::npos) return pzic::status::no_such;
        pzic::zone made;
        std::uint32_t why = 0;
        const std::int32_t answer = pzic_tree_zone(folder_.c_str(), name.c_str(), made.handle_.get(), &why);
        return pzic::zone::given(std::move(made), answer, why);
    }

    // Reads all files of the folder, in the order of their names, and those of the folders in it that are no
    // links. What is no TZif file, or one that rows can't be made of, is left out. Returns status::unreadable
    // where a folder or a file can't be read, and no_memory where memory is refused to the library.
    result<pzic::files> files() const {
        std::vector<std::pair<std::string, std::string>> read;
        std::string room(PZIC_MOST_BYTES + 1, '\0');
        std::error_code failed;
        std::filesystem::recursive_directory_iterator at(folder_, failed);
        for (; !failed && at != std::filesystem::recursive_directory_iterator(); at.increment(failed)) {
            const std::string path = at->path().string();
            std::size_t length = 0;
            const std::int32_t answer =
                pzic_load_(path.c_str(), reinterpret_cast<std::uint8_t *>(room.data()), &length);
            if (answer == PZIC_UNREADABLE) return pzic::status::unreadable;
            if (answer != PZIC_OK) continue;
            read.emplace_back(at->path().lexically_relative(folder_).string(), room.substr(0, length));
        }
        if (failed) return pzic::status::unreadable;
        std::sort(read.begin(), read.end());
        return pzic::files::of({read.begin(), read.end()});
    }

private:
    std::string folder_;
};
#endif

}  // namespace pzic

#endif
