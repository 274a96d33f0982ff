"""Tests the package: the stored lines of the repository, and how texts, vectors and errors behave.

Usage: check.py ROOT, the folder of the checkout. The package is the one that Python finds. The checks are in the folder
`checks` next to this file.
"""

from __future__ import annotations

from checks import calls, copying, exact, process, stored, tables, texts, vectors

CHECKS = (
    process.check_syntax,
    process.check_version,
    stored.check_stored_lines,
    stored.check_incomplete,
    stored.check_finding,
    stored.check_records,
    stored.check_explanations,
    calls.check_calls,
    texts.check_texts,
    texts.check_long_texts,
    texts.check_texts_of_subclasses,
    texts.check_many_texts,
    texts.check_matches,
    texts.check_options,
    vectors.check_values,
    vectors.check_scores,
    vectors.check_changes,
    vectors.check_made_of_incomplete,
    vectors.check_metrics_by_name,
    vectors.check_setting,
    vectors.check_rejected_metrics,
    vectors.check_values_of_errors,
    vectors.check_red_hat_notation,
    vectors.check_types,
    tables.check_metric_types,
    tables.check_groups,
    exact.check_severities,
    exact.check_numbers,
    exact.check_rounding,
    copying.check_subclasses,
    copying.check_copies,
    copying.check_forged_pickles,
    copying.check_weak_references,
    copying.check_errors_are_freed,
    copying.check_incomplete_copies,
    process.check_command,
    process.check_library,
    process.check_threads,
    process.check_handlers,
    process.check_signals,
    process.check_docstrings,
)

if __name__ == "__main__":
    for check in CHECKS:
        check()
