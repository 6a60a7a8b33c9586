//! Tests by calls: each public call of the libraries runs with memory at hand, and what it gives is
//! compared with values from outside. Contracts permit out of memory in place of any result, so a
//! run alone shows that a call gives another one. `tests/libraries` lays these files beside those
//! of the crate `library_tests`, this one in the place of its head, and runs the tests of both
//! without a proof. They are Rattle's, and have another ending since no crate of the repository has
//! them. `tests/calls` finds functions that no test and no crate calls.
//!
//! The calls, crate by crate, and their tests:
//!
//! period_core
//! - `new`, `from_date`, `from_text`, `number`, `prev`, `next`, `write_text` of `Day`:
//!   `periods::days`
//! - `new`, `from_parts`, `from_text`, `number`, `prev`, `next`, `first`, `forever`, `write_text`
//!   of `Moment`: `periods::moments`, `periods::fractions_of_a_second`
//! - `overlaps`, `equals`, `contains` of `Period`: `periods::shared_days`; `precedes`, `succeeds`,
//!   `immediately_precedes`, `immediately_succeeds`: `periods::one_after_the_other`
//! - `new`, `start`, `end`, `contains_day`, `intersect`, `minus` of `Period`:
//!   `periods::parts_of_periods`
//! - `Window::sees`: `periods::windows`
//! - the order of `Value` and `Values`: `rows::order`; `run_end`: `rows::runs`
//! - `copy` of `Value`, `PeriodRow`, `VersionRow`: `rows::copies`; of `Answer`:
//!   `engines::answers_and_their_copies`
//! - `encode_values`, `decode_values`: `values::numbers`, `values::texts_and_dates`,
//!   `values::bytes_of_no_values`
//! - `code`, `name` of `Refusal`: `refusals::numbers_and_names`
//!
//! sql_front
//! - `lex`: `statements::tokens`; `cut`: `statements::pieces`
//! - `lex_spans`, `cut_spans`, `tokens_at`: `statements::places`
//! - `parse`: `statements::refusals`, `statements::names_in_upper_case`
//!
//! catalog_core
//! - `define`, `lawful`, `TableDef::copy`: `tables::of_creates`, `tables::references`
//! - `len`, `find`, `def` of `Catalog`: `tables::numbers_of_tables`
//! - `encode_def`, `decode_def`: `definitions::both_ways`, `definitions::bytes_of_no_definition`,
//!   `definitions::cut_bytes`
//! - `fits`: `queries::tables_of_a_query`
//! - `holds`: `queries::conditions`
//! - `meets`: `queries::stored_query_in_a_window`
//!
//! statement_resolution
//! - `resolve_change`: `plans::plans_of_each_form`
//! - `resolve_query`: `queries::first_answer`, `queries::changed_departments`
//! - `resolve_stored`: `queries::stored_query_in_a_window`
//!
//! portion_dml
//! - `plan_insert`, `plan_update`, `plan_delete`: `plans::plans_of_each_form`
//! - `after`: `plans::portion_update`, `plans::equal_rows_stay_apart`
//!
//! period_keys
//! - `key_clash`: `plans::clashes`; `uncovered`: `plans::departments_and_workers`
//!
//! sequenced_ops
//! - `select`: `operators::selections`; `select_into`: `operators::rows_selected_one_at_a_time`
//! - `join`: `operators::changed_departments`, `operators::pairs_of_rows`
//! - `union`: `operators::unions`; `difference`: `operators::differences_in_every_order`;
//!   `intersection`: `operators::intersections`
//! - `run_query`: `queries::first_answer`, `queries::changed_departments`, `queries::common_days`,
//!   `queries::many_pairs_of_few_departments`
//!
//! coalesce_core
//! - `coalesce`: `operators::shortest_lists`; `Coalesce::new`:
//!   `operators::rows_coalesced_one_at_a_time`; `witnesses`: `operators::days_that_witness`
//!
//! snapshot_audit
//! - `rows_on`: `audits::snapshots`; `eval_on`: `audits::sets_on_a_day`,
//!   `audits::common_sets_on_a_day`
//! - `change_days`: `audits::days_of_change`, `audits::all_of_time_audited`
//! - `check_witnesses`: `audits::checker_and_audit_by_calls`
//! - `audit`: `audits::verdicts`, `audits::checker_and_audit_by_calls`, `audits::except_audited`,
//!   `audits::intersect_audited`
//!
//! version_store
//! - `open`, `catalog`, `clock`, `rows` of `VersionStore`, `accept`: `stores::new_stores`,
//!   `moves::moved_as_accepted`
//! - `catalog`, `clock`, `refuse` of `OpenedStore`: `stores::opened_and_refused`
//! - `add_table`, `advance`, `apply`, `reopen`, `close`: `stores::opened_again`
//! - `scan`: `stores::windows`, `stores::a_visitor_that_refuses_the_third_row`
//!
//! script_engine
//! - `open`, `close`, `clock`, `catalog`, `rows` of `Engine`: `engines::reopened_store`, which has
//!   `close_at_exit` too, `engines::store_of_another_form`, `engines::insert_with_column_list`,
//!   `moves::starts_that_meet`, `moves::refused_as_it_is`, `moves::clocks_at_both_ends`;
//!   `open_by`: `moves::ahead_of_a_moment`; `at`: `engines::clocks`
//! - `execute`: `engines::portions`, `engines::stored_versions`; `execute_audited`:
//!   `engines::audited_statements`
//! - `run`: `engines::runs_of_scripts`
//! - `run_script`, `run_audited`, `write_report`, `write_audited`: `scripts::one_after_the_other`,
//!   `scripts::refused_as_a_whole`
//! - `check_script`, `write_check`: `statements::checked`
//!
//! The program's own calls, `command_line` and `run_tool`, are tested by `tests/commands`.
#![tactic(auto)]

#[cfg(test)]
mod audits;
#[cfg(test)]
mod definitions;
#[cfg(test)]
mod engines;
#[cfg(test)]
mod fixtures;
#[cfg(test)]
mod moves;
#[cfg(test)]
mod old_stores;
#[cfg(test)]
mod operators;
#[cfg(test)]
mod periods;
#[cfg(test)]
mod plans;
#[cfg(test)]
mod queries;
#[cfg(test)]
mod refusals;
#[cfg(test)]
mod rows;
#[cfg(test)]
mod scripts;
#[cfg(test)]
mod statements;
#[cfg(test)]
mod stores;
#[cfg(test)]
mod tables;
#[cfg(test)]
mod values;
