#!/usr/bin/env python3
"""Crates out of memory: each allocation of some of their tests is refused, alone and with all after it; of some each
thread, too.

    tests/refused_memory_in_crates.py [CRATE..]

The tests that `rt ci`, or `rt test` in the crate, builds are run one by one. Each must end as the undisturbed one, or
with the error `NoMemory` or `AllocError`, or `AllocFailed` or `WriteFailed` where a list of its own was refused, or
`NoWorker` where its call starts threads. Where a call is refused, the tests themselves look at what it left, and end
otherwise if that is not what its contract says: a tree that `reserve`, `outer_runs` or `cut` changed, results that
`gather` does not hand back, a database that is not halted, or that answers a later call otherwise than by `Halted`; or
at what no contract says: reply lines that are not flushed. Allocations and starts of threads are refused by the
preloaded library of support/fail_alloc.c.
"""

import os
import sys
import tempfile

from support.program import TOP, Cases, build_library, give_up, run
from support.refusals import EXTENTS, runs_refusing

# A crate of tests, and those of them that take memory. One line makes a further test part of this.
TESTS = {
    "page_tests": [
        "entries::keeps_entries_at_the_least_limits",
        "entries::keeps_entries_at_the_largest_limits",
        "entries::shards_stand_in_the_order_in_which_they_were_made",
        "trees::has_outer_runs",
        "trees::cuts::puts_back_one_node_of_a_run_of_three",
        "trees::cuts::stays_as_the_last_cut_left_it_where_nothing_is_put_back",
        "trees::cuts::cuts_runs_and_puts_back_what_is_kept",
    ],
    "phase_tests": [
        "piecewise::masks_spare_the_first_node_of_a_run",
        "piecewise::cuts_lists_in_their_order",
        "piecewise::gathers_by_number",
        "piecewise::tells_distinct_indexes",
        "piecewise::links_and_moves_in_pieces",
        "by_turns::two_strips_closed_at_each_pair_of_counts",
        "by_turns::a_phase_is_closed_once_all_turns_are_there",
        "by_turns::an_access_is_seen_and_then_marked",
        "by_turns::a_page_is_taken_and_then_put",
        "by_workers::crews_read_words_at_opening_and_add_marks_up",
        "by_workers::the_calling_thread_alone_links_and_moves_in_several_pieces",
        "by_workers::one_worker_links_in_a_single_piece",
        "by_workers::one_worker_moves_and_marks_in_a_single_piece",
        "by_workers::one_worker_strips_and_marks",
    ],
    "database_tests": [
        "databases::holds_each_frame_once_at_the_start",
        "databases::maps_a_page_on",
        "databases::unmaps::revokes_what_derives",
        "databases::unmaps::revokes_by_recursion",
        "databases::accesses::marks_the_same_with_a_crew",
        "databases::clears::takes_all_pages_from_a_space",
        "databases::clears::takes_all_pages_from_a_space_by_recursion",
        "audits::reports_a_small_database",
        "audits::halted::a_halted_database_refuses_every_call",
        "audits::halted::a_database_that_a_watched_unmap_halted_refuses_every_call",
        "replays::flushes_what_it_has_written_where_memory_runs_out",
        "replays::shared::three_workers_make_accesses_of_one_page",
        "replays::shared::three_workers_work_calls_of_every_kind",
    ],
}
# Those of them whose calls start threads.
TESTS_WITH_THREADS = {
    ("database_tests", "databases::accesses::marks_the_same_with_a_crew"),
    ("database_tests", "audits::halted::a_halted_database_refuses_every_call"),
    ("database_tests", "audits::halted::a_database_that_a_watched_unmap_halted_refuses_every_call"),
    ("database_tests", "replays::shared::three_workers_make_accesses_of_one_page"),
    ("database_tests", "replays::shared::three_workers_work_calls_of_every_kind"),
}

# What a test ends with that was refused memory, by a call, or for a list of its own; or a thread.
REFUSED = {
    "allocation": [
        b"error: NoMemory\n", b"error: AllocError\n", b"error: AllocFailed { .. }\n", b"error: NoWorker\n",
        b"error: NoMemory(", b"error: NoWorker(", b"error: WriteFailed\n",
    ],
    "thread": [b"error: NoWorker\n", b"error: NoWorker("],
}


def built_tests(crate):
    """A crate of tests as a program. Where it is not built, the script ends."""
    program = os.path.join(TOP, "crates", crate, "out", f"{crate}_tests")
    if not os.access(program, os.X_OK):
        give_up(f"there is no {program}: ./test.sh proves it and builds it")
    return program


def what_is_wrong(what, undisturbed, got):
    """What is wrong with how a run ended in which an allocation, or a thread, was refused, or an empty text."""
    said = got.stdout + got.stderr
    if got.status is None:
        return "it did not end in its time"
    if got == undisturbed or (got.status != 0 and any(text in said for text in REFUSED[what])):
        return ""
    return f"neither the undisturbed run nor a refusal: status {got.status}, {said[:200]!r}"


def check_test(cases, name, words, library, what):
    """Refuses each allocation, or each start of a thread, of one test in turn."""
    undisturbed = run(words)
    cases.check(f"{name} passes", "" if undisturbed.status == 0 else f"status {undisturbed.status}")
    for and_rest, extent in EXTENTS:
        runs = list(runs_refusing(words, b"", library, what, and_rest))
        for it in runs:
            cases.check(f"{name}: {what} {it.at} {extent} is refused", what_is_wrong(what, undisturbed, it.got))
        effect = any(it.got.status != 0 for it in runs)
        cases.check(f"{name}: none is left to refuse, {extent}", "there are more" if runs[-1].was_refused else "")
        cases.check(f"{name}: some run was refused a {what}, {extent}", "" if effect else "the library has no effect")


def asked_for():
    """The crates that the command line names, or all."""
    for crate in sys.argv[1:]:
        if crate not in TESTS:
            give_up(f"there is no table of tests of {crate}")
    return sys.argv[1:] or list(TESTS)


def main():
    cases = Cases()
    programs = {crate: built_tests(crate) for crate in asked_for()}
    with tempfile.TemporaryDirectory() as room:
        library = build_library("fail_alloc.c", room)
        for crate, program in programs.items():
            for test in TESTS[crate]:
                words = [program, test]
                check_test(cases, f"{crate}: {test}", words, library, "allocation")
                if (crate, test) in TESTS_WITH_THREADS:
                    check_test(cases, f"{crate}: {test}", words, library, "thread")
    cases.end()


main()
