"""Compares the Python module with plain dictionaries: rounds of 100 random calls on small keys, also at both ends of the keys, with
equal values of several types. Then come values whose __hash__, __eq__ and __del__ raise or change the map, and each allocation failing
in turn. The last parts are memory that stays flat, the garbage collector, threads, pickles, arrays, types and the examples of
docstrings. A part whose tool is missing is left out, and named. The last line is 'N passed, M failed'.

    python3 tests/python [ROUNDS [SEED]] [CASE ..]        CASE: one of CASES, in place of all of them
"""
import sys
import time

from cases import arrays, changed_while_iterated, many_entries, printed, subclasses, threads, updated_ranges, values_of_all_kinds
from claims import asked_once, contains, pickled, rejected_states
from columns import columns_go_round, columns_of_all_kinds, painted_columns, rejected_columns
from concurrent_calls import changes_wait, other_threads_run, signals_are_seen
from few import few_rows, few_rows_in_place, few_rows_refused
from interface import examples, pages, types
from memory import collected, memory_is_flat, refused, refused_memory, sanitized, values_are_dropped
from nomemory import python_allocations_fail
from others import dask_names, numpy_arrays, signatures, sizes, typed, version
from private import iterators_are_not_copied, private_classes
from room import removals_give_room_back, values_keep_their_entries
from rounds import rounds
from two_maps import (
    changed_meanwhile, compared_in_one_pass, compared_maps, compared_once, differences, frozen_gaps, frozen_operators, spread_hashes, unions
)
from wild import wild_values
from without_hash import (
    arrays_as_values, changed_values, copied_and_pickled, hashes_that_raise, lists_are_dropped, no_hash_of_a_map, operators_of_lists, points,
    values_without_hash
)

CASES = [values_of_all_kinds, changed_while_iterated, updated_ranges, wild_values, values_are_dropped, collected, memory_is_flat, subclasses,
         arrays, many_entries, threads, printed, refused_memory, sanitized, examples, types]
CASES += [columns_go_round, painted_columns, rejected_columns, columns_of_all_kinds, contains, asked_once, rejected_states, pickled,
          numpy_arrays, sizes, dask_names, version, signatures, typed]
CASES += [iterators_are_not_copied, private_classes, removals_give_room_back, values_keep_their_entries, python_allocations_fail,
          few_rows, few_rows_in_place, few_rows_refused, changes_wait, other_threads_run,
          signals_are_seen]
CASES += [values_without_hash, changed_values, copied_and_pickled, operators_of_lists, no_hash_of_a_map, hashes_that_raise,
          lists_are_dropped, points]
CASES += [compared_maps, compared_once, compared_in_one_pass, changed_meanwhile, differences, unions, frozen_operators, frozen_gaps,
          spread_hashes, pages, arrays_as_values]


def main():
    if sys.argv[1:] == ["refused"]:
        refused()
    named = [case for case in CASES if case.__name__ in sys.argv[1:]]
    numbers = [int(word) for word in sys.argv[1:] if word.isdigit()]
    count, seed = (numbers + [0 if named else 400, 64][len(numbers):])[:2]
    failed = rounds(count, seed)
    passed = count - failed
    for case in named or CASES:
        started = time.process_time()
        try:
            passed += case() or 1
        except Exception as failure:
            failed += 1
            print(f"{case.__name__}: {failure!r}")
        if named:
            print(f"{case.__name__}: {time.process_time() - started:.1f} s")
    print(f"{passed} passed, {failed} failed")
    sys.exit(failed != 0)


main()
