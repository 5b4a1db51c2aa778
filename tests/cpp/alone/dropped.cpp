// Results that a program must not drop: a compiler warns at each line that ends with the comment, and at no other.
#include "range_map.hpp"

using words = rangemap::map<std::int64_t, std::uint64_t>;

void drop_results(words &map, const words &other, std::int64_t *keys, std::uint64_t *values) {
    const rangemap::table<std::int64_t, std::uint64_t> table(keys, keys, values, 1);
    map.fill_if_free(1, 2, 3);                 // dropped
    map.split_off(1);                          // dropped
    map.get(1);                                // dropped
    map.contains(1);                           // dropped
    map.find(1);                               // dropped
    map.entry_at(1);                           // dropped
    map.gap_at(1);                             // dropped
    map.next(1);                               // dropped
    map.previous(1);                           // dropped
    map.first();                               // dropped
    map.last();                                // dropped
    map.any(1, 2);                             // dropped
    map.all(1, 2);                             // dropped
    map.find_gap(1, 2, 1);                     // dropped
    map.find_last_gap(1, 2, 1);                // dropped
    map.key_count();                           // dropped
    map.key_count_within(1, 2);                // dropped
    map.size();                                // dropped
    map.max_size();                            // dropped
    map.empty();                               // dropped
    map.begin();                               // dropped
    map.cbegin();                              // dropped
    map.rbegin();                              // dropped
    map.end();                                 // dropped
    map.rend();                                // dropped
    map.entries_from(1);                       // dropped
    map.entries_back_from(1);                  // dropped
    map.to_table(keys, keys, values, 1);       // dropped
    map.complement(1);                         // dropped
    map.compare(other);                        // dropped
    map | other;                               // dropped
    words(map) | other;                        // dropped
    map | words(other);                        // dropped
    map & other;                               // dropped
    map - other;                               // dropped
    map ^ other;                               // dropped
    rangemap::union_many(&other, 1);           // dropped
    std::hash<words>()(map);                   // dropped
    table.is_ordered(keys, keys, values, 1);   // dropped
    table.size();                              // dropped
    table.get(1);                              // dropped
    table.contains(1);                         // dropped
    table.entry_at(1);                         // dropped
    table.gap_at(1);                           // dropped
    table.next(1);                             // dropped
    table.previous(1);                         // dropped
    table.key_count_within(1, 2);              // dropped
    map.paint(1, 2, 3);
    map.fill_gaps(1, 2, 3);
    map.insert_or_assign(1, 2);
    map.erase(1);
    map.erase_range(1, 2);
    map.pop_first();
    map.pop_last();
    map |= other;
    erase_if(map, [](const words::entry &entry) { return entry.value == 1; });
}
