// Which types keys and values may have, and what their maps are, at compile time.
#include "tests.hpp"

#include <array>
#include <iterator>
#include <type_traits>
#include <utility>

namespace {

enum loose { loose_one, loose_two };
enum class yes : bool {};

struct padded {
    char one;
    int other;
};

} // namespace

using rangemap::is_key;
using rangemap::is_value;
static_assert(is_key<int> && is_key<char> && is_key<char16_t> && is_key<std::uint64_t> && is_key<std::int64_t> && is_key<std::uint8_t>);
static_assert(is_key<letter> && is_key<level> && is_key<place>);
static_assert(!is_key<bool> && !is_key<yes> && !is_key<loose> && !is_key<double> && !is_key<int *> && !is_key<const int>);
static_assert(is_value<bool> && is_value<std::int8_t> && is_value<const char *> && is_value<loose> && is_value<point> && is_value<id>);
static_assert(!is_value<float> && !is_value<double> && !is_value<padded> && !is_value<std::string>);
static_assert(!is_value<std::array<std::uint64_t, 2>> && !is_value<const int> && !is_value<int &>);

static_assert(std::is_nothrow_default_constructible_v<numbers> && std::is_nothrow_move_constructible_v<numbers>);
static_assert(std::is_nothrow_move_assignable_v<numbers> && std::is_nothrow_swappable_v<numbers>);
static_assert(std::is_copy_constructible_v<numbers> && !std::is_nothrow_copy_constructible_v<numbers>);
static_assert(sizeof(numbers) == sizeof(void *));
static_assert(std::is_same_v<numbers::value_type, rangemap::entry<int, int>> && std::is_same_v<numbers::value_type, numbers::entry>);
static_assert(std::is_same_v<numbers::reference, decltype(*std::declval<numbers &>().begin())>);
static_assert(std::is_same_v<numbers::const_reference, decltype(*std::declval<const numbers &>().begin())>);
static_assert(std::is_same_v<numbers::iterator, decltype(std::declval<numbers &>().begin())>);
static_assert(std::is_same_v<numbers::iterator, decltype(std::declval<numbers &>().end())>); // algorithms of C++17 need one type
static_assert(std::is_same_v<numbers::const_iterator, decltype(std::declval<numbers &>().cbegin())>);
static_assert(std::is_same_v<numbers::reverse_iterator, decltype(std::declval<numbers &>().rbegin())>);
static_assert(std::is_same_v<numbers::const_reverse_iterator, decltype(std::declval<numbers &>().crend())>);
static_assert(std::is_same_v<numbers::difference_type, std::iterator_traits<numbers::iterator>::difference_type>);
static_assert(std::is_same_v<numbers::size_type, decltype(std::declval<numbers &>().max_size())>);
static_assert(std::is_same_v<numbers::key_type, int> && std::is_same_v<numbers::mapped_type, int>);
static_assert(std::is_nothrow_copy_constructible_v<numbers::iterator> && std::is_nothrow_default_constructible_v<numbers::iterator>);
static_assert(std::is_constructible_v<numbers, const numbers::entry *, const numbers::entry *>);
static_assert(!std::is_constructible_v<numbers, int, int>); // two numbers are no iterators

using rangemap::is_table_key;
using rangemap::is_table_value;
enum class wide : std::int64_t {};
struct halves {
    std::uint32_t low, high; // its alignment is that of uint32_t
};
static_assert(is_table_key<std::int64_t> && is_table_key<long long> && is_table_key<wide>);
static_assert(!is_table_key<std::uint64_t> && !is_table_key<place> && !is_table_key<int> && !is_table_key<level>);
static_assert(is_table_value<std::uint64_t> && is_table_value<std::int64_t> && is_table_value<place> && is_table_value<const char *>);
static_assert(!is_table_value<std::uint32_t> && !is_table_value<halves> && !is_table_value<double>);
using table = rangemap::table<std::int64_t, std::uint64_t>;
static_assert(std::is_trivially_copyable_v<table> && !std::is_convertible_v<table, rangemap::map<std::int64_t, std::uint64_t>>);
static_assert(rangemap::map<level, int>::least_key == level::low && rangemap::map<level, int>::greatest_key == level::high);
#if __cplusplus >= 202002L
static_assert(std::forward_iterator<numbers::iterator> && std::forward_iterator<numbers::reverse_iterator>);
static_assert(std::forward_iterator<table::iterator>);
static_assert(std::three_way_comparable<numbers, std::strong_ordering>);
#endif
