#!/usr/bin/env python3
"""Verdicts of edits that no prover judged, in rounds: edits_rounds.py CRATE [--size N] [--jobs N] [--base] [--compile] [--nobase] [EDIT or EDIT,EDIT..]

A round is a copy of the repository in which some edits of the crate are applied, no two in one function. Each is checked over the kept
libraries (pending/over_kept.py) with `--only` of the functions that the edits are to be refused at, begun with what the check of the crate
as it stands proved of the same functions. --base: only that check. --compile: only whether the edited copies are read (`--only ''`).
"""
import concurrent.futures as futures
import importlib.machinery
import importlib.util
import os
import re
import shutil
import subprocess
import sys
import time

TOP, HOME = os.environ["ROUNDS_TOP"], os.environ["ROUNDS_HOME"]   # a clone, and a folder for what is made
PROVE = ["timeout", os.environ.get("ROUNDS_TIMEOUT", "1500")]

# edit: the function (as a check names it), and the clause by which it is to be refused
EDITS = {
    "store_fixtures": {
        "the_log_is_not_crashed": ("disks::crashed", "usable"),
        "a_disk_fails_twice": ("disks::failing_disk", "fails"),
        "a_new_disk_is_not_synced": ("disks::fill", "left"),
        "octets_are_written_further_on": ("disks::fill", "holds, left"),
        "a_database_that_is_made_is_adopted": ("desks::desk_over", "shows, rests, only, others, unmade"),
        "a_database_that_is_found_is_made": ("desks::desk_over", "adopted, held, left, rejected"),
        "an_open_transaction_is_told_as_no_memory": ("desks::desk_over", "closed"),
        "a_transaction_is_begun_behind_a_desk": ("desks::connection_of", "same, undone, autocommit, survives"),
        "a_connection_is_limited_behind_a_desk": ("desks::connection_of", "survives"),
        "a_look_retires": ("showing::shown", "shows, leaves"),
        "a_former_edition_is_listed_as_the_current": ("showing::push_content", "the only clause"),
    },
    "store_rows": {
        "no_octet_of_a_body_is_tested": ("entries::test_line", "is"),
        "what_is_shown_is_left_out": ("writing::put_shown", "put"),
    },
    "store_search": {
        "an_index_is_keyed_by_what_is_shown": ("edition::index_entries", "the only clause"),
    },
    "store_holdings": {
        "the_part_behind_is_read": ("parts::put_part", "put"),
        "a_cut_goes_past_its_part": ("parts::front", "the slice's bound"),
        "headwords_are_counted_for_entries": ("answering::count_under", "value"),
        "headwords_are_handed_out_by_another_strategy": ("answering::heads_under", "value"),
        "an_entry_is_counted_where_no_index_stands": ("answering::count_under", "none"),
        "a_former_index_is_let_go_of": ("numbers::item_has", "apart"),
        "an_index_stays_under_a_gone_number": ("numbers::let_go_unless", "gone"),
        "an_index_goes_where_it_is_to_be_made": ("numbers::make_indexes_of", "the only clause"),
    },
    "store_scans": {
        "index_of_another_edition_is_read": ("entries::read_filed_entries", "whole"),
        "failing_read_is_damage": ("scan::take_next", "damaged"),
        "ids_come_in_any_order": ("tables::test_ids", "whole"),
    },
    "dict_reading": {
        "reserved_keys_are_forgotten": ("gathered::Gathered::add", "once, added, refused"),
        "title_is_the_info": ("reading::Reading::title", "the only clause"),
    },
    "store_commands": {
        "headword_is_filed_for_what_is_shown": ("install::write_entry", "the only clause"),
        "what_was_filed_is_committed_by_a_read_change": ("ending::read_change", "keeps, inside, same"),
        "parts_of_the_former_get_the_new_number": ("writing::write_editions", "wrote, failed"),
        "a_number_in_use_is_filed": ("parts::is_other_number", "next"),
        "a_refused_statement_is_a_failure_of_the_disk": ("parts::file_part", "failed, faulted"),
        "error_is_made_up_after_the_mark": ("writing::write_summary", "failed"),
        "foreign_rows_go": ("writing::add_reply", "wrote"),
        "nothing_is_planned_to_be_filed": ("filing::plan_filing", "planned"),
        "prepared_command_always_fails": ("finishing::apply_lawful", "applied, failed, stays"),
        "repeated_id_runs_again": ("applying::apply", "value, holds, crash"),
        "rows_are_filed_twice": ("parts::file_parts", "failed"),
        "reply_of_another_id": ("replies::kept_reply", "alone, value"),
        "unlawful_id_is_kept": ("applying::apply", "value; apply_new's requires id"),
    },
    "store_migration": {
        "entries_stay_behind": ("dropping::drop_old", "gone"),
        "a_failed_creation_empties_tables_of_others": ("making::commit_tables", "beside, stays, failed"),
        "error_is_made_up_after_the_tables": ("making::make_all", "failed"),
        "every_database_is_refused": ("making::create", "no_place"),
        "failed_commit_is_memory": ("migrating::migrate_from", "failed, adds_none"),
        "fourth_column_is_lost": ("lines", "said of Indexed for KeyedEntry"),
        "mark_in_a_second_transaction": ("migrating::migrate_from", "crash, failed, stays"),
        "mark_is_left_out": ("making::make_all", "made"),
    },
    "store_desk": {
        "a_lookup_empties_tables_of_others": ("lookups::DeskLookup::info", "beside"),
        "an_expected_command_takes_parts_out": ("preparing::DeskPreparer::expect", "shows, leaves"),
        "other_indexes_go_where_one_comes": ("indexing::put_coming", "put"),
        "a_command_keeps_an_empty_text": ("keeper::DeskKeeper::apply", "shows: the texts that are kept"),
        "a_close_always_fails": ("closing::Desk+FileStore+D::close", "failed"),
        "a_close_writes": ("closing::Desk+FileStore+D::close", "alone, left, failed"),
        "a_command_empties_tables_of_others": ("keeper::DeskKeeper::apply", "applied; the desk's invariant"),
        "a_connection_is_an_error": ("desk::Desk::into_connection", "same, autocommit, cause"),
        "a_connection_is_handed_out_in_a_transaction": ("desk::Desk::into_connection", "autocommit, undone"),
        "a_filed_command_always_fails": ("keeper::apply_over", "over"),
        "a_lookup_that_fails_is_told_as_a_command": ("promise::apply_to_file", "failed"),
        "a_migration_empties_tables_of_others": ("adopting::renew", "others, beside"),
        "a_part_is_committed": ("preparing::DeskPreparer::prepare", "leaves, shows; the desk's invariant"),
        "a_reopened_desk_is_a_new_one": ("reopening::open_over", "opened"),
        "a_desk_counts_no_looks": ("lookups::DeskLookup::count", "looks"),
        "adopted_desk_is_empty": ("desk::Desk::adopt", "held, left; over's requires holds"),
        "an_edition_gets_the_index_of_none": ("indexing::index_edition", "the only clause"),
        "an_edition_that_goes_is_answered_from_what_is_left": ("withdrawing::is_apart", "the only clause"),
        "an_index_is_made_where_nothing_is_filed": ("preparing::file_next", "inside"),
        "an_index_is_put_under_another_number": ("indexing::put_coming", "put"),
        "an_index_loses_its_entries": ("indexing::taken", "the only clause"),
        "an_index_of_another_edition_is_put": ("indexing::index_made", "the only clause"),
        "an_opening_makes_a_catalogue": ("reopening::Desk+FileStore+FileFrom+S::open_from", "adopted, shows"),
        "audit_writes": ("desk::Desk::audit", "spares, same, sound"),
        "creation_fails_as_a_closed_desk": ("desk::Desk::create", "kinds, failed"),
        "failed_command_is_tried_again": ("promise::apply_to_file", "stands, halted"),
        "failed_migration_is_damage": ("adopting::renew", "kinds, failed"),
        "former_edition_is_asked": ("lookups::DeskLookup::info", "value"),
        "memory_before_the_commit_closes_the_desk": ("keeper::DeskKeeper::apply", "closes, caused"),
        "opened_files_are_told_as_refused": ("reopening::open_over", "unopened"),
        "path_is_made_anew": ("reopening::Desk+FileStore+FileFrom+S::open_from", "adopted, shows"),
        "preparing_closes_the_desk_for_no_cause": ("preparing::DeskPreparer::prepare", "caused"),
        "second_version_is_left": ("adopting::renew", "rests"),
        "session_of_the_empty_catalogue": ("session::session_over", "ran"),
        "texts_stay_after_a_failure": ("kept::forget_by", "the only clause"),
        "unanswered_commands_are_told_as_answered": ("promise::apply_to_file", "halted, stands"),
        "unopened_is_read": ("session::session_over", "untouched"),
    },
    "dictcat_lib": {
        "a_cache_has_no_bound": ("cached::cache_pages", "most"),
        "a_creation_fails_for_nothing": ("desks::make_desk", "the only clause"),
        "a_file_in_use_is_told_as_a_full_disk": ("cached::open_pair", "kind"),
        "a_name_of_no_file_is_opened": ("cached::open_pair", "memory"),
        "a_new_file_has_no_sums": ("cached::open_cached", "sums"),
        "files_that_are_refused_are_told_as_not_had": ("cached::open_cached", "unopened"),
    },
}

# --nobase: one round after another over one folder of kept work (where a whole run has proved the crate as it stands); use --jobs 1
NOBASE = "--nobase" in sys.argv

# a proof file that names what an edit took away
NAMES = re.compile(r"has no field|is not in scope|has no `|is no name|was not admitted|unknown")


def edited(path, folder):
    kit = os.path.dirname(subprocess.run(["rt", "doc"], capture_output=True, text=True, check=True).stdout.strip())
    loader = importlib.machinery.SourceFileLoader("rtmod", f"{kit}/bin/rt")
    rt = importlib.util.module_from_spec(importlib.util.spec_from_loader("rtmod", loader))
    sys.path.insert(0, f"{kit}/bin")
    loader.exec_module(rt)
    texts, why = rt.read_edit(path, folder)
    if why:
        sys.exit(f"{path}: {why}")
    return texts


def linked(one, other):
    """As rt's own: what was proved by links, which a check replaces and doesn't change."""
    def copy(a, b):
        if a.endswith(".oantt"):
            return os.link(a, b)
        return shutil.copy2(a, b)
    shutil.rmtree(other, ignore_errors=True)
    shutil.copytree(one, other, symlinks=True, copy_function=copy)


def copied(to):
    shutil.rmtree(to, ignore_errors=True)
    os.makedirs(to)
    for part in ("crates", "crates.txt", "HANDLES"):
        subprocess.run(["cp", "-al", f"{TOP}/{part}", f"{to}/{part}"], check=True)


def checked(root, crate, functions, kept, log):
    words = [it for name in functions for it in ("--only", name)]
    command = [*PROVE, "python3", f"{TOP}/pending/over_kept.py", crate, *words, "--incremental", kept]
    begun = time.time()
    with open(log, "w") as to:
        status = subprocess.run(command, env={**os.environ, "V5ROOT": root, "V5HOME": HOME}, stdin=subprocess.DEVNULL, stdout=to, stderr=subprocess.STDOUT).returncode
    return status, time.time() - begun, open(log, errors="replace").read().splitlines()


def base(crate, functions):
    room = f"{HOME}/{crate}"
    if os.path.exists(f"{room}/seed.ok") and set(functions) <= set(open(f"{room}/seed.ok").read().split()):
        return
    os.makedirs(room, exist_ok=True)
    copied(f"{room}/base")
    os.makedirs(f"{room}/seed", exist_ok=True)
    status, took, lines = checked(f"{room}/base", crate, functions, f"{room}/seed", f"{room}/base.log")
    print(f"{crate}: as it stands: status {status}, {took:.0f} s: {lines[-1] if lines else ''}", flush=True)
    if status:
        sys.exit(f"{crate}: the base isn't proved: {room}/base.log")
    open(f"{room}/seed.ok", "w").write("\n".join(functions))


def one_round(crate, names, compile_only):
    room, tag = f"{HOME}/{crate}", "+".join(names) if len(names) < 3 else f"{names[0]}+{len(names) - 1}"
    root, kept = f"{room}/round-{tag}", f"{room}/kept-{tag}"
    copied(root)
    for name in names:
        for path, text in edited(f"{TOP}/crates/{crate}/edits/{name}.edit", f"{root}/crates/{crate}").items():
            os.remove(f"{root}/crates/{crate}/{path}")
            open(f"{root}/crates/{crate}/{path}", "w").write(text)
    if NOBASE:
        kept = f"{room}/seed"
        os.makedirs(kept, exist_ok=True)
    elif os.path.isdir(f"{room}/seed"):
        linked(f"{room}/seed", kept)
    else:
        os.makedirs(kept, exist_ok=True)
    functions = [""] if compile_only else sorted({EDITS[crate][it][0] for it in names})
    status, took, lines = checked(root, crate, functions, kept, f"{room}/{'read-' if compile_only else ''}{tag}.log")
    shutil.rmtree(root, ignore_errors=True)
    if not NOBASE:
        shutil.rmtree(kept, ignore_errors=True)
    return names, status, took, lines


def tell(crate, names, status, took, lines, compile_only):
    last = lines[-1] if lines else ""
    print(f"== {crate} {' '.join(names)}: status {status}, {took:.0f} s: {last}", flush=True)
    if compile_only:
        if status:
            print(*[it[:300] for it in lines if "error" in it][:6], sep="\n", flush=True)
        return
    for name in names:
        function, wanted = EDITS[crate][name]
        place = function.replace("::", "/")
        fns = [it for it in lines if it.startswith("fn ") and f"::{function}" in it]
        errors = [it for it in lines if re.search(r":\d+:\d+: error|^note: ", it)]
        named = [it for it in errors if NAMES.search(it)]
        clauses = sorted(set(re.findall(r"`?((?:[\w+-]+-)?(?:returns|requires|invariant_of|loop|init|preserved)[\w+-]*)`?", "\n".join(errors))))
        print(f"   {name}: {[it[3:] for it in fns]} wanted: {wanted}")
        print(f"     goals: {' '.join(clauses)[:1500]}")
        print(f"     by name alone: {len(named)} of {len(errors)} lines", *[f"       {it[:200]}" for it in named[:6]], sep="\n", flush=True)


def main(words):
    crate = words.pop(0)
    size = int(words.pop(words.index("--size") + 1)) if "--size" in words else 1
    jobs = int(words.pop(words.index("--jobs") + 1)) if "--jobs" in words else 2
    flags = [it for it in words if it.startswith("--")]
    names = [it for it in words if not it.startswith("--")] or sorted(EDITS[crate])
    compile_only = "--compile" in flags
    if not compile_only and not NOBASE:
        base(crate, sorted({EDITS[crate][it][0] for it in ",".join(names).split(",")}))
        if "--base" in flags:
            return
    rounds = [it.split(",") for it in names if "," in it]
    for name in [it for it in names if "," not in it]:
        for one in rounds:
            if len(one) < size and all(EDITS[crate][it][0] != EDITS[crate][name][0] for it in one):
                one.append(name)
                break
        else:
            rounds.append([name])
    with futures.ThreadPoolExecutor(jobs) as pool:
        for done in futures.as_completed([pool.submit(one_round, crate, it, compile_only) for it in rounds]):
            tell(crate, *done.result(), compile_only)


if __name__ == "__main__":
    main(sys.argv[1:])
