#!/usr/bin/env python3
"""Bugs that the wrappers had, each brought back by one edit: a test of its language must then fail, and say what is written here.

    bugs.py FOLDER [WORD]      FOLDER is what sdk/build made; with a WORD only the bugs in whose names it stands

A bug is an edit of a file of sdk/, or of service/ where its name says so, in which its old text stands once. Where something was missing,
the edit makes the call do nothing. sdk/, service/, tests/sdk and docs are copied; there each test is run without an edit, and must pass,
and then under each edit. It ends with a status other than 0 where an edit cannot be made, where a test passes in spite of it, or fails by
other words than it should, and where a language is not there that GATE_WITHOUT does not name."""
import concurrent.futures
import os
import pathlib
import shutil
import subprocess
import sys
import tempfile
import time
import typing

sys.dont_write_bytecode = True
TOP = pathlib.Path(__file__).resolve().parents[2]
sys.path.insert(0, str(TOP / "tests" / "sdk"))
import there

SECONDS = 1800
# What each language's tests want of the machine.
WANTS = {"Python": (), "Go": ("go", "pkg-config"), "C++": ("g++",), "Rust": ("cargo",)}
# What some of them want besides, by the file or the library that they name.
MORE = {"typed": ("mypy",), "libcurl": ("pkg-config", "libcurl")}


class Bug(typing.NamedTuple):
    """A bug of a language's wrapper: the edit that brings it back, the test that sees it, and what that tells."""

    language: str
    name: str
    file: str
    old: str
    new: str
    test: tuple
    tells: str


NUMBERS, PLACES = ("kit", "Numbers.test_values"), ("kit", "Refusals.test_places")
TIMES = ("kit", "Numbers.test_identities_and_times")
AT_ONCE = ("kit", "Lives.test_recorders_wait_for_no_call_of_another_thread")
OTEL_CASES = ("otel_cases", "all")
KIT, SETS = ("kit",), "TestCases/attributes_of_each_kind"
NAMES = "TestSharedCasesOfNames"
UNITS, SILENCED = f"{NAMES}/two_histograms_of_one_name_and_two_units", f"{NAMES}/a_view_that_makes_two_instruments"
LATE, REJECTED = "a_late_instrument_is_told_by_name_and_place", "points_that_were_rejected_fail_the_export"
OLD_PLAN, BY_NAME = "an_archive_of_an_old_plan_hides_no_live_metric", "two_that_would_feed_one_stream_are_told_by_name"
LAST, TWO_UNITS = "a_gauge_has_the_last_value_of_any_thread", "one_name_in_two_units_is_two_instruments"
CHILD, HOOK = "a_provider_that_nothing_started_is_refused_in_a_child", "a_hook_that_is_refused_itself_is_not_called_for_that"
FIRST_LINE, BOUND, NO_LINES = "the_first_refusal_of_each_kind_is_a_line", "lines_have_a_bound", "who_has_a_hook_has_no_lines"
IN_HOOK, FAILURES = "what_a_hook_is_refused_is_a_line", "the_first_failure_of_each_reason_in_a_row_is_a_line"
CLOSED_ERR, MISFIT = "a_closed_standard_error_harms_nobody", "a_view_that_does_not_fit_is_told_and_passed_over"
LIMITED, MODE, MEET = "a_limit_is_told_once_of_each_stream", "a_file_has_the_mode_that_files_have", "two_that_write_one_file_do_not_meet"
LEAVES, REFUSAL = "what_fails_leaves_nothing_behind", "a_refusal_has_the_first_line_of_its_body"
POSTED = "http_brings_an_export_and_tells_what_is_answered"
FIRST_WRITTEN = "failed: without a hook the first of each kind is written"
LEFT, LEFT_BOUNDS = "TestWhatIsLeftOutIsTold", "TestWhatIsLeftOutHasBounds"
SERVER, GATEWAY = "service/internal/server", "service/cmd/kotskhin-gateway"
BUGS = [
    Bug("Python", "a value is wrapped: 2**64 + 3 is recorded as 3", "python/kotskhin/writer.py",
        "calls.kit_writer_measure(self, instrument, attributes, value)",
        "calls.kit_writer_measure(self, instrument, attributes, (value + (1 << 63)) % (1 << 64) - (1 << 63))",
        NUMBERS, "OverflowError not raised : <bound method Writer.measure of "),
    Bug("Python", "an attribute is wrapped: the set of 2**64 + 5 is that of 5", "python/kotskhin/attributes.py",
        "calls.kit_pairs_add_whole(made, *text(key), value)", "calls.kit_pairs_add_whole(made, *text(key), c_int64(value).value)",
        NUMBERS, "OverflowError not raised : <class 'kotskhin.attributes.Attributes'> of ({'n': "),
    Bug("Python", "a time is wrapped: collect(-1) is at 2**64 - 1", "python/kotskhin/writer.py",
        "calls.kit_writer_collect(self, time, made)", "calls.kit_writer_collect(self, time % (1 << 64), made)",
        TIMES, "OverflowError not raised : <bound method Writer.collect of "),
    Bug("Python", "no number is held to the range of its type", "python/kotskhin/library.py",
        "        if not least <= number <= most:", "        if False:",
        ("kit", "Numbers"), "FAIL: test_ids_limits_and_kinds "),
    Bug("Python", "each place is told as 0", "python/kotskhin/library.py",
        "_answer(function, (*given, place)):", "_answer(function, (*given, c_uint64())):",
        PLACES, "(<Code.TIME_NOT_AFTER: 14>, 'TIME_NOT_AFTER', (0, None))"),
    Bug("Python", "recorders run one after another under one lock", "python/kotskhin/library.py",
        "kept: Function = made if has_own_lock else _lock_each(made)", "kept: Function = _lock_each(made)", AT_ONCE,
        "a recorder waits for another thread's call"),
    Bug("Python", "an answer that says that points were not taken is a success", "python/kotskhin/metrics/exporters.py",
        "if why := points_not_taken(told) or exports_not_taken(late):", "if why := None:", ("metrics", "Answers.test_points"),
        "AssertionError: None != (3, 0, '3 points: LATE')"),
    Bug("Python", "histograms of one name and two units count each value twice", "python/kotskhin/metrics/provider.py",
        "name, view = _advice(instrument, taken)",
        "view = kotskhin.plan.View(name, instrument.kind, instrument.scope, aggregation=instrument._advised)",
        OTEL_CASES, "two histograms of one name and two units, with bounds of their own: "),
    Bug("Python", "a view that can't be applied to an instrument refuses them all", "python/kotskhin/metrics/views.py",
        "self.faults[kind] = fault", "raise", OTEL_CASES, "BAD_AGGREGATION: an aggregation does not fit its instrument"),
    Bug("Python", "nobody is told that a stream is beyond its limit", "python/kotskhin/metrics/provider.py",
        "found = self._limits.beyond(export)", "found = []", OTEL_CASES, "a limit of sets: "),
    Bug("Python", "what records while a provider starts is lost", "python/kotskhin/metrics/provider.py",
        'writer = self._chosen.setdefault("writer", made)', "writer = made",
        ("trouble", "Interrupted.test_a_recording_at_each_place_of_the_first_one"), "AssertionError: Tuples differ: "),
    Bug("Python", "children of multiprocessing lose what they recorded", "python/kotskhin/metrics/provider.py",
        "if multiprocessing.parent_process() is not None:", "if False:", ("brought", "Children.test_at_their_end"),
        "!= ((1, 1000), 75)"),
    Bug("Python", "attributes of odd types use up the places of all", "python/kotskhin/metrics/instruments.py",
        "            if held:\n", "            if held and is_texts and not of:\n", ("trouble", "OddAttributes.test_they_use_up_no_places"),
        " not less than or equal to 2"),
    Bug("Python", "a hook that is refused itself is called again", "python/kotskhin/metrics/provider.py",
        "if self._hook and is_outermost:", "if self._hook:", ("trouble", "Hooks.test_one_that_is_refused_itself"),
        "FAIL: test_one_that_is_refused_itself "),
    Bug("Python", "without a hook nothing is said", "python/kotskhin/metrics/provider.py",
        "log.warning(said, *words)", "pass", ("metrics", "Recording.test_without_a_hook_each_kind_is_logged_once"),
        "no logs of level WARNING"),
    Bug("Python", "without a hook each refusal is said", "python/kotskhin/metrics/provider.py",
        "return is_first\n", "return True\n", ("metrics", "Recording.test_without_a_hook_each_kind_is_logged_once"),
        "FAIL: test_without_a_hook_each_kind_is_logged_once "),
    Bug("Python", "a sum's parameter is called otherwise than OpenTelemetry's", "python/kotskhin/metrics/instruments.py",
        '    """A sum that only rises."""\n\n    __slots__ = ()\n    kind = Kind.COUNTER\n\n    add = Instrument._record\n',
        '    """A sum that only rises."""\n\n    __slots__ = ()\n    kind = Kind.COUNTER\n\n'
        '    def add(self, value, attributes=None, context=None):\n        self._record(value, attributes)\n',
        ("trouble", "OddAttributes.test_by_the_name_of_the_parameter"), "unexpected keyword argument 'amount'"),
    Bug("Python", "an exception can't be pickled", "python/kotskhin/metrics/exporters.py",
        "super().__init__(what, why, unsent)", "super().__init__(what)", ("trouble", "Exceptions.test_they_are_pickled"),
        "ERROR: test_they_are_pickled "),
    Bug("Python", "who drips is waited for as long as he does", "python/kotskhin/metrics/deadline.py",
        "        self._of.settimeout(_left(self._ends))\n        return self._raw", "        return self._raw",
        ("brought", "Posts.test_a_server_that_drips"), "FAIL: test_a_server_that_drips "),
    Bug("Python", "what a refusal says is passed over", "python/kotskhin/metrics/exporters.py",
        "str(fault.reason), _first_line(said))", "str(fault.reason))", ("brought", "Posts.test_what_a_refusal_says"),
        "FAIL: test_what_a_refusal_says "),
    Bug("Python", "the kit's own bytes have another type than in other languages", "python/kotskhin/metrics/exporters.py",
        '"application/vnd.kotskhin.export"', '"application/x-kotskhin"', ("metrics", "Exporters.test_posts"), "application/x-kotskhin"),
    Bug("Python", "files are for who wrote them alone", "python/kotskhin/metrics/exporters.py",
        "os.O_CLOEXEC, 0o666)", "os.O_CLOEXEC, 0o600)", ("brought", "Files.test_their_mode_is_the_umasks"), "384 != 420"),
    Bug("Python", "all who write one file do so under one name", "python/kotskhin/metrics/exporters.py",
        ".{secrets.token_hex(8)}", ".new", ("brought", "Files.test_threads_of_one_path"), "FileExistsError"),
    Bug("Python", "a file that is not replaced leaves another one", "python/kotskhin/metrics/exporters.py",
        "            os.unlink(written)\n", "", ("brought", "Files.test_nothing_is_left_behind"), "FAIL: test_nothing_is_left_behind "),
    Bug("Python", "no checker of types reads which names there are", "python/kotskhin/metrics/__init__.py",
        '"HttpRefused", "Instrument", "LastValueAggregation", "Meter", "MeterProvider", "MetricExporter", "NotTaken",',
        '*("HttpRefused", "Instrument", "LastValueAggregation", "Meter", "MeterProvider", "MetricExporter", "NotTaken"),',
        ("typed", "Types.test_programs_of_the_page"), 'does not explicitly export attribute "MeterProvider"'),
    Bug("Go", "an attribute without a value is dropped", "go/attributes.go",
        "\t\treturn ErrInvalidValue\n", "\t\treturn nil\n", ("TestAnAttributeWantsAValue",), "--- FAIL: TestAnAttributeWantsAValue"),
    Bug("Go", "sets have texts alone", "go/attributes.go",
        "switch value.Type() {", "switch value = attribute.StringValue(value.Emit()); value.Type() {", (SETS,), f"--- FAIL: {SETS}"),
    Bug("Go", "errors.Is finds no code", "go/refused.go",
        "return ok && code == r.Code", "return ok && code == -r.Code", ("TestRefusalsChangeNothing",), "not kotskhin: NEGATIVE at 0"),
    Bug("Go", "a code is told as a number", "go/refused.go",
        "if code, ok := codes[c]; ok {", "if code, ok := codes[c]; ok && c < 0 {", ("TestRefusalsSayWhy",),
        "kotskhin: code 10, not kotskhin: CLOSED"),
    Bug("Go", "memory of C is left to finalizers", "go/kotskhin.go",
        "\th.free()\n\truntime.SetFinalizer(h, nil)\n", "", ("TestWhatIsClosedIsGivenUpAtOnce",), "the process grew by "),
    Bug("Go", "an answer that says that points were not taken is a success", "go/metric/answers.go",
        "why := pointsNotTaken(body);", "why := pointsNotTaken(body[:0]);", ("TestWhatOTLPSaysWasNotTaken", "./metric"),
        "--- FAIL: TestWhatOTLPSaysWasNotTaken"),
    Bug("Go", "advice is of a name, and not of a unit", "go/metric/planned.go",
        'entry.Name = fmt.Sprintf("instrument.%d", i.number)', "", (UNITS, "./metric"), f"--- FAIL: {UNITS}"),
    Bug("Go", "an instrument that feeds the stream of another one silences all", "go/metric/provider.go",
        "if first, ok := p.fed[stream]; ok {", "if first, ok := p.fed[stream]; ok && first < 0 {", (SILENCED, "./metric"),
        f"--- FAIL: {SILENCED}"),
    Bug("Go", "a view that can't be applied silences its instrument", "go/metric/planned.go",
        "case isInapplicable(fault):", "case false:", ("TestAViewThatCannotBeApplied", "./metric"),
        "--- FAIL: TestAViewThatCannotBeApplied"),
    Bug("Go", "the first set beyond a limit is told by nothing", "go/metric/limited.go",
        "if isBeyond {", "if isBeyond && number < 0 {", ("TestEachStreamTellsItsLimit", "./metric"),
        "--- FAIL: TestEachStreamTellsItsLimit"),
    Bug("Go", "a second shutdown waits for nothing", "go/metric/provider.go",
        "return p.awaitShutdown(ctx)", "return nil", ("TestAShutdownWaitsForAnother", "./metric"),
        "--- FAIL: TestAShutdownWaitsForAnother"),
    Bug("Go", "a shutdown that is cancelled leaves goroutines", "go/metric/reader.go",
        "defer stop()", "defer func() {}()", ("TestAShutdownThatIsCancelledClosesAll", "./metric"),
        "--- FAIL: TestAShutdownThatIsCancelledClosesAll"),
    Bug("Go", "a hook that flushes ends the reader", "go/metric/calls.go",
        "return atomic.LoadInt32(&p.calls) > 0 && isWithin(userCalls)", "return false", ("TestHooksMayNotFlush", "./metric"),
        "a hook does not end"),
    Bug("Go", "the collector is not asked for what nobody closed", "go/memory.go",
        "\t\truntime.GC()\n", "\t\truntime.Gosched()\n", ("TestWhatIsForgottenIsCollected",), "the process grew by "),
    Bug("Go", "a gateway that was stopped takes live workers for ended", "service/internal/archivist/archivist.go",
        "elapsed(last, now) <= 2*a.Every {", "a.Every > 0 {", ("TestAStopBeginsTheTimeAnew", "service/internal/archivist"),
        "--- FAIL: TestAStopBeginsTheTimeAnew"),
    Bug("Go", "two gateways adopt of one service", "service/internal/archivist/archivist.go",
        "if len(rivals) == 0 {", "if len(rivals) >= 0 {", ("TestTwoArchivistsOfOneTemplate", "service/cmd/kotskhin-gateway"),
        "--- FAIL: TestTwoArchivistsOfOneTemplate"),
    Bug("Go", "a peer that is not listed any more is no peer", "service/internal/gossip/roster.go",
        "return g.roster.missing(urls, folders)", "return g.roster.missing(urls, folders)[:0]",
        ("TestWhoMayNameAPeerAsGone", "service/internal/server"), "--- FAIL: TestWhoMayNameAPeerAsGone"),
    Bug("Go", "an exporter that panics at its end ends the process", "go/metric/reader.go",
        "r.provider.call(func() error { return r.exporter.Shutdown(ctx) })", "r.exporter.Shutdown(ctx)",
        ("TestAnExporterThatPanicsAtItsEnd", "./metric"), "panic: at the end"),
    Bug("Go", "a hook that is refused itself is called again", "go/metric/provider.go",
        "p.config.onRefused != nil && !isWithin(tellHook)", "p.config.onRefused != nil && (p.Refused() < 100 || !isWithin(tellHook))",
        ("TestAHookThatIsRefused", "./metric"), "--- FAIL: TestAHookThatIsRefused"),
    Bug("Go", "without a hook nothing is said", "go/metric/provider.go",
        "!isWithin(logged) && p.isFirst(refusal)", "p.isFirst(refusal) && isWithin(logged)",
        ("TestWithoutAHookAllIsLoggedOnce", "./metric"),
        "--- FAIL: TestWithoutAHookAllIsLoggedOnce"),
    Bug("Go", "without a hook each refusal is said", "go/metric/provider.go",
        "return isNew\n", "return true\n", ("TestWithoutAHookAllIsLoggedOnce", "./metric"), "--- FAIL: TestWithoutAHookAllIsLoggedOnce"),
    Bug("Go", "what a refusal says is passed over", "go/metric/answers.go",
        'fmt.Errorf("the answer is %s: %s", answer.Status, says)', 'errors.New("the answer is " + answer.Status)',
        ("TestWhatARefusalSays", "./metric"), "--- FAIL: TestWhatARefusalSays"),
    Bug("Go", "the kit's own bytes have another type than in other languages", "go/metric/exporters.go",
        '"application/vnd.kotskhin.export"', '"application/x-kotskhin"', ("TestPosts", "./metric"), "--- FAIL: TestPosts"),
    Bug("Go", "files are for who wrote them alone", "go/metric/exporters.go",
        "os.O_EXCL, 0666)", "os.O_EXCL, 0600)", ("TestFiles", "./metric"), "-rw-------"),
    Bug("Go", "all who write one file do so under one name", "go/metric/exporters.go",
        'fmt.Sprintf(".%s.%x", filepath.Base(path), drawn)', 'fmt.Sprintf(".%s.new", filepath.Base(path))',
        ("TestAFileOfSeveralExporters", "./metric"), "--- FAIL: TestAFileOfSeveralExporters"),
    Bug("Go", "a file that is not replaced leaves another one", "go/metric/exporters.go",
        "\t\tos.Remove(beside)\n", "", ("TestAFileThatIsNotReplacedLeavesNothing", "./metric"),
        "--- FAIL: TestAFileThatIsNotReplacedLeavesNothing"),
    Bug("Go", "that points of OTLP were left out is told to who debugs alone", "service/internal/server/left.go",
        'l.log.Warn("points of OTLP', 'l.log.Debug("points of OTLP', (LEFT, SERVER), f"--- FAIL: {LEFT}"),
    Bug("Go", "points of OTLP that were left out are of no service", "service/internal/server/left.go",
        'figures.Labels("service", key.Service, "reason", key.Reason)', 'figures.Labels("reason", key.Reason)', (LEFT, SERVER),
        f"--- FAIL: {LEFT}"),
    Bug("Go", "each request whose points are left out is a line", "service/internal/server/left.go",
        "!l.last.IsZero() && rest > 0", "l.last.IsZero() && rest > 0", (LEFT, SERVER), f"--- FAIL: {LEFT}"),
    Bug("Go", "figures of what is left out have no end", "service/internal/server/left.go",
        "len(l.services) >= mostServices || !grant.Allows(service)", "!grant.Allows(service)", (LEFT_BOUNDS, SERVER),
        f"--- FAIL: {LEFT_BOUNDS}"),
    Bug("Go", "an ask whose where has no value is answered as another one", "service/internal/server/asks.go",
        '!ok || key == "" {', 'ok && key == "" {', ("TestWhatIsNoAsk", SERVER), "/v1/rows?where=route: 200"),
    Bug("Go", "words of scripts for shapes are none in asks", "service/internal/server/shapes.go",
        '"sum+": kotskhin.MonotonicSum, ', "", ("TestWordsForShapes", SERVER), "shape=sum%2B: "),
    Bug("Go", "a peer that begins anew is a warning", "service/internal/server/server.go",
        "\t\t\tlog = s.Log.Info\n", "", ("TestAPeersRestartIsNoWarning", SERVER), "--- FAIL: TestAPeersRestartIsNoWarning"),
    Bug("Go", "a sender's points hide another's", "service/internal/server/takes.go",
        "checkReserved(brought, body); err != nil {", "checkReserved(brought, body); err != nil && brought == nil {",
        ("TestSendersBringNoTombstones", SERVER), "/v1/exports 200"),
    Bug("Go", "beside peers what they took may be hidden", "service/internal/settings/settings.go",
        "isSafe := len(s.Archive) == 0 ||", "isSafe := least > 0 ||", ("TestArchiveAfterBesidePeers", "service/internal/settings"),
        "--archive shop --archive-after 79s --peer http://a:1: <nil>"),
    Bug("Go", "two tombstones of one incarnation are told by nothing", "service/internal/held/doubled.go",
        "if points < 2 {", "if points > 0 {", ("TestTwoTombstonesOfOneIncarnation", "service/internal/held"),
        "--- FAIL: TestTwoTombstonesOfOneIncarnation"),
    Bug("Go", "two tombstones of one incarnation are no error", "service/cmd/kotskhin-gateway/serve.go",
        'r.log.Error("two archives adopted', 'r.log.Debug("two archives adopted', ("TestTwoTombstonesAreAnError", GATEWAY),
        "--- FAIL: TestTwoTombstonesAreAnError"),
    Bug("Go", "two tombstones of one incarnation are no figure", "service/internal/server/reads.go",
        'set(figures.Doubled, "", float64(s.Held.Doubled().Count))', "", ("TestTwoTombstonesAreAnError", GATEWAY),
        "--- FAIL: TestTwoTombstonesAreAnError"),
    Bug("Go", "who archives what is told by nobody", "service/internal/server/reads.go",
        " Archives: s.Gossip.Archives,", "", ("TestWhoArchivesWhatIsTold", SERVER), "--- FAIL: TestWhoArchivesWhatIsTold"),
    Bug("C++", "there are no views", "cpp/kotskhin/plan.hpp",
        "void add(const View &view) { check(kit_views_add(handle.at(), view.raw().lent().at())); }", "void add(const View &) {}",
        KIT, "failed: rows and views"),
    Bug("C++", "there are no rows", "cpp/kotskhin/rows.hpp",
        "rows.push_back(row(number));", "(void)number;", KIT, "failed: what reads is const"),
    Bug("C++", "there is no shutdown", "cpp/kotskhin/writer.hpp",
        "kit_writer_shutdown(handle.at()", "kit_writer_collect(handle.at()", KIT, "failed: refusals"),
    Bug("C++", "a gateway is not const where it is read", "cpp/kotskhin/gateway.hpp",
        "uint64_t conflicts() const {", "uint64_t conflicts() {", KIT, "discards qualifiers"),
    Bug("C++", "rows are not const where they are read", "cpp/kotskhin/rows.hpp",
        "Row row(size_t number) const {", "Row row(size_t number) {", KIT, "discards qualifiers"),
    Bug("C++", "what one gateway says was not taken goes to the next one", "cpp/kotskhin/metrics/exporters.hpp",
        "} catch (const NotTaken &) {", "} catch (const std::bad_alloc &) {", ("readers",),
        "failed: what was not taken goes to nobody else"),
    Bug("C++", "gauges of two threads: the last log wins", "cpp/kotskhin/metrics/shared.hpp",
        "if (at.is_of_gauge) return to.record_now(*log, at, value), KIT_OK;", "", ("otel",), "failed: the last recording of a gauge wins"),
    Bug("C++", "views of two units are of one name", "cpp/kotskhin/metrics/planned.hpp",
        "if (!entry.shares_name || entry.views.empty()) return entry.declared.name;",
        "if (number < all.size()) return entry.declared.name;",
        ("otel",), "failed: one name may have two units"),
    Bug("C++", "a fraction is cut, and a truth is 1", "cpp/kotskhin/metrics/whole.hpp",
        "std::is_integral_v<Given> && !std::is_same_v<Given, bool> && !is_character<Given>", "std::is_arithmetic_v<Given>",
        ("otel",), "static assertion failed"),
    Bug("C++", "a value is wrapped: 2^64 - 1 is -1", "cpp/kotskhin/metrics/whole.hpp",
        "return given <= static_cast<std::make_unsigned_t<int64_t>>(INT64_MAX);", "return given >= 0;",
        ("otel",), "failed: a value without room is refused by every instrument"),
    Bug("C++", "an up-down counter is a counter", "cpp/kotskhin/metrics/instruments.hpp",
        "class UpDownCounter : detail::Adding {\npublic:\n    using detail::Adding::Add, detail::Adding::Adding;",
        "class UpDownCounter : public Counter<Value> {\npublic:\n    using Counter<Value>::Counter;",
        ("otel",), "static assertion failed"),
    Bug("C++", "a recording comes to another provider of its thread", "cpp/kotskhin/metrics/shared.hpp",
        "return of == &other && !shared.expired();", "return of != nullptr || shared.lock().get() == &other;",
        ("forks",), "failed: children amid recordings are refused"),
    Bug("C++", "a fork records under its parent's identity", "cpp/kotskhin/metrics/process.hpp",
        "if (is_another()) throw make_refused(FORKED);", "", ("forks",), "failed: a provider that nothing started is of its process"),
    Bug("C++", "a library that is opened at run time records in its own provider", "cpp/kotskhin/metrics/shared.hpp",
        "return of == &other && !shared.expired();", "return of != nullptr;", ("plugin",), "failed: /"),
    Bug("C++", "without a hook nothing is said", "cpp/kotskhin/metrics/shared.hpp",
        "return lines.tell(refusal);", "return;", ("otel",), FIRST_WRITTEN),
    Bug("C++", "without a hook each refusal is said", "cpp/kotskhin/metrics/lines.hpp",
        "kinds.size() < MOST && kinds.emplace(refusal.instrument, refusal.code).second", "kinds.size() < MOST", ("otel",), FIRST_WRITTEN),
    Bug("C++", "a hook that is refused itself is called again", "cpp/kotskhin/metrics/shared.hpp",
        "if (is_telling || !options.on_refused)", "if ((is_telling && refused() > 100) || !options.on_refused)", ("otel",),
        "failed: a hook that is refused itself ends"),
    Bug("C++", "the first set beyond a limit is told by nothing", "cpp/kotskhin/metrics/shared.hpp",
        "refuse(limits.beyond(made, options.limit, at.streams.size()));", "limits.beyond(made, options.limit, at.streams.size());",
        ("otel",), "failed: a limit that is reached is told once for each stream"),
    Bug("C++", "a view that can't be applied refuses its instrument", "cpp/kotskhin/metrics/shared.hpp",
        "passed_over.emplace_back(why.code, number);", "throw Refused(why.code, number);", ("otel",),
        "failed: a view that can't be applied is passed over"),
    Bug("C++", "files are for who wrote them alone", "cpp/kotskhin/metrics/exporters.hpp",
        "O_CLOEXEC, 0666)", "O_CLOEXEC, 0600)", ("readers",), "failed: a file is written under a name of its own"),
    Bug("C++", "all who write one file do so under one name", "cpp/kotskhin/metrics/exporters.hpp",
        'path = other + "." + std::to_string(drawn.high) + ".new";', 'path = other + ".new";', ("readers",),
        "failed: a file is written under a name of its own"),
    Bug("C++", "a file that is not replaced leaves another one", "cpp/kotskhin/metrics/exporters.hpp",
        "if (!path.empty()) unlink(path.c_str());", "", ("readers",), "failed: a file is written under a name of its own"),
    Bug("C++", "what a refusal says is passed over", "cpp/kotskhin/metrics/http.hpp",
        'return why.empty() ? told : told + ": " + why;', "return told;", ("readers", "libcurl"), "failed: http tells why it was refused"),
    Bug("C++", "the kit's own bytes have another type than in other languages", "cpp/kotskhin/metrics/exporters.hpp",
        '"application/vnd.kotskhin.export"', '"application/octet-stream"', ("readers", "libcurl"),
        "failed: http brings an export, and tells what is answered"),
    Bug("Rust", "OpenTelemetry's names have one scope", "rust/kotskhin/src/metrics/provider.rs",
        "Meter::new(Arc::clone(&self.0.shared), scope.into())",
        'Meter::new(Arc::clone(&self.0.shared), { let _: String = scope.into(); String::from("app") })',
        ("metrics", "one_name_in_two_scopes_is_two_instruments"), "left: 7"),
    Bug("Rust", "OpenTelemetry's names have no views", "rust/kotskhin/src/metrics/provider.rs",
        "stream_of: Box::new(view),", "stream_of: { drop(view); Box::new(|_| None) },", ("streams", "views_make_streams"),
        "---- views_make_streams stdout ----"),
    Bug("Rust", "values of a gauge wait in each thread's log", "rust/kotskhin/src/metrics/instruments.rs",
        "shared.record_at_once(number, attributes, value)", "shared.record(number, attributes, value)", ("metrics", LAST),
        f"---- {LAST} stdout ----"),
    Bug("Rust", "views and advice are of all units of a name", "rust/kotskhin/src/metrics/declaring.rs",
        "false => &own,", "false => &one.name,", ("streams", TWO_UNITS), f"---- {TWO_UNITS} stdout ----"),
    Bug("Rust", "a child of a fork records under its parent's identity", "rust/kotskhin/src/home.rs",
        "self.0 == process::id()", "self.0 > 0", ("forked", CHILD), f"---- {CHILD} stdout ----"),
    Bug("Rust", "a hook that is refused itself is called for ever", "rust/kotskhin/src/metrics/telling.rs",
        "!IS_IN_HOOK.replace(true)", "!IS_IN_HOOK.replace(false)", ("metrics", HOOK), "has overflowed its stack"),
    Bug("Rust", "`hold` grows at each call", "rust/kotskhin/src/writer.rs",
        "        Ok(HeldNumber(number))", "        std::mem::forget([0; 64].to_vec());\n        Ok(HeldNumber(number))",
        ("holding", "the_same_set_again_takes_no_memory"), "it grew by "),
    Bug("Rust", "the sets that are held grow for ever", "rust/kotskhin/src/metrics/logs.rs",
        "self.count >= self.room", "self.count.checked_add(self.room).is_none()",
        ("metrics", "sets_without_end_take_memory_that_has_one"), "it grew by "),
    Bug("Rust", "safe code reaches a panic", "rust/kotskhin/src/metrics/shared.rs",
        "None => return Err(Error::NotStarted),", 'None => panic!("the provider has started"),',
        ("metrics", LATE), f"---- {LATE} stdout ----"),
    Bug("Rust", "an archive begins as late as it is made", "rust/kotskhin/src/archive.rs",
        "Archive::begin_under(service, draw_instance(), START, limit)", "Archive::begin_under(service, draw_instance(), 900, limit)",
        ("archives", OLD_PLAN), f"---- {OLD_PLAN} stdout ----"),
    Bug("Rust", "who is refused is told by a number", "rust/kotskhin/src/metrics/telling.rs",
        "self.why.say(f, &NAMED)?;", "self.why.say(f, &[])?;", ("streams", BY_NAME), f"---- {BY_NAME} stdout ----"),
    Bug("Rust", "an answer that says that points were not taken is a success", "rust/kotskhin/src/metrics/exporters.rs",
        "match not_taken(&answer.body, answer.late) {", "match not_taken(&[], 0) {", ("answers", REJECTED), f"---- {REJECTED} stdout ----"),
    Bug("Rust", "without a hook nothing is said", "rust/kotskhin/src/metrics/telling.rs",
        "_ => self.log_first_of_kind(refusal),", "_ => (),", ("logged", FIRST_LINE), f"---- {FIRST_LINE} stdout ----"),
    Bug("Rust", "without a hook each refusal is said", "rust/kotskhin/src/metrics/telling.rs",
        "logged.len() < KINDS && logged.insert(kind)", "logged.insert(kind) || logged.len() < KINDS", ("logged", FIRST_LINE),
        f"---- {FIRST_LINE} stdout ----"),
    Bug("Rust", "kinds of lines have no end", "rust/kotskhin/src/metrics/telling.rs",
        "logged.len() < KINDS && logged.insert(kind)", "logged.insert(kind)", ("logged", BOUND), f"---- {BOUND} stdout ----"),
    Bug("Rust", "who has a hook has lines, too", "rust/kotskhin/src/metrics/telling.rs",
        "    tell(hook, refusal);\n", "    tell(hook, refusal);\n                self.log_first_of_kind(refusal);\n",
        ("logged", NO_LINES), f"---- {NO_LINES} stdout ----"),
    Bug("Rust", "what a hook is refused has no line", "rust/kotskhin/src/metrics/telling.rs",
        "_ => self.log_first_of_kind(refusal),", "None => self.log_first_of_kind(refusal), _ => (),", ("logged", IN_HOOK),
        f"---- {IN_HOOK} stdout ----"),
    Bug("Rust", "each failure of one reason has a line", "rust/kotskhin/src/logging.rs",
        "if self.last.as_ref() != Some(&reason) {", "if self.last.as_ref() != Some(&reason) || !reason.is_empty() {", ("logged", FAILURES),
        f"---- {FAILURES} stdout ----"),
    Bug("Rust", "a standard error that is closed ends who records", "rust/kotskhin/src/logging.rs",
        'let _ = File::from(descriptor).write_all(format!("kotskhin: {text}\\n").as_bytes());',
        'File::from(descriptor).write_all(format!("kotskhin: {text}\\n").as_bytes()).expect("it is open");', ("logged", CLOSED_ERR),
        f"---- {CLOSED_ERR} stdout ----"),
    Bug("Rust", "a limit that is reached is told by nothing", "rust/kotskhin/src/metrics/limits.rs",
        "reached.extend(stream.is_told.then_some(number));", "let _ = number;", ("streams", LIMITED), f"---- {LIMITED} stdout ----"),
    Bug("Rust", "a view that can't be applied refuses its instrument", "rust/kotskhin/src/metrics/declaring.rs",
        "Error::BadAggregation { .. } => Ok(Error::BadAggregation { instrument, view }),",
        "Error::BadAggregation { .. } => Err(Error::BadAggregation { instrument, view }),", ("streams", MISFIT),
        f"---- {MISFIT} stdout ----"),
    Bug("Rust", "files are for who wrote them alone", "rust/kotskhin/src/metrics/files.rs",
        "File::create_new(&beside)",
        "std::os::unix::fs::OpenOptionsExt::mode(fs::OpenOptions::new().write(true).create_new(true), 0o600).open(&beside)",
        ("files", MODE), f"---- {MODE} stdout ----"),
    Bug("Rust", "all who write one file do so under one name", "rust/kotskhin/src/metrics/files.rs",
        'beside.push(format!(".{}-{number}.new", process::id()));\n        match File::create_new(&beside) {',
        'beside.push(".new");\n        let _ = (number, process::id());\n        match File::create(&beside) {', ("files", MEET),
        f"---- {MEET} stdout ----"),
    Bug("Rust", "a file that is not replaced leaves another one", "rust/kotskhin/src/metrics/files.rs",
        "let _ = fs::remove_file(&beside);", "", ("files", LEAVES), f"---- {LEAVES} stdout ----"),
    Bug("Rust", "what a refusal says is passed over", "rust/kotskhin/src/metrics/exporters.rs",
        """why => format!("answered '{line}': {why}"),""", """_ => format!("answered '{line}'"),""", ("answers", REFUSAL),
        f"---- {REFUSAL} stdout ----"),
    Bug("Rust", "the kit's own bytes have another type than in other languages", "rust/kotskhin/src/metrics/exporters.rs",
        'self.content_type = "application/vnd.kotskhin.export".to_owned();',
        'self.content_type = "application/octet-stream".to_owned();', ("readers", POSTED), f"---- {POSTED} stdout ----"),
]


def is_of_service(name):
    """Whether a name of a file or a package is one of service/, and not one below sdk/."""
    return name.startswith("service/")


class Copy:
    """The wrappers, the service and their tests, in a folder of this run's own."""

    def __init__(self, room, kit):
        self.room, self.kit, self.faults = room, kit, []
        left = shutil.ignore_patterns("out", "target", "__pycache__")
        for part in ("sdk", "service", "tests/sdk", "docs"):
            shutil.copytree(TOP / part, room / part, ignore=left)
        self.env = {"GOCACHE": f"{room}/go", **os.environ, "KOTSKHIN_SO": f"{kit}/shared/libkotskhin.so.0", "KOTSKHIN_LIB": f"{kit}/lib"}
        self.env |= {"PKG_CONFIG_PATH": f"{kit}/lib/pkgconfig", "GOFLAGS": "-mod=mod", "GOPROXY": "off"}
        self.env |= {"CARGO_TARGET_DIR": f"{room}/target", "CARGO_PROFILE_DEV_DEBUG": "0", "CARGO_TERM_COLOR": "never"}

    def say(self, what, fault):
        if fault:
            self.faults.append(what)
        print(f"{what}: {fault or 'ok'}", flush=True)

    def place(self, name):
        return self.room / name if is_of_service(name) else self.room / "sdk" / name

    def told(self, folder, *command):
        """The status of a command, and what it prints."""
        done = subprocess.run([str(it) for it in command], cwd=self.room / folder, env=self.env, stdin=subprocess.DEVNULL,
                              stdout=subprocess.PIPE, stderr=subprocess.STDOUT, timeout=SECONDS, check=False)
        return done.returncode, done.stdout.decode(errors="replace")

    def ran(self, language, test):
        """The status of one test, and what it prints. It is a name in a file; in Go in the first package, or in one that is named; and in
        C++ the whole program, linked with the libraries that are named."""
        if language == "Python":
            return self.told("tests/sdk/python", sys.executable, "-B", f"{test[0]}.py", test[1])
        if language == "Go":
            package = self.place(test[1] if is_of_service(test[-1]) else "/".join(["go", *test[1:]]))
            made = self.told(package, "go", "test", "-c", "-o", f"{self.room}/go.test", ".")
            return made if made[0] else self.told(package, f"{self.room}/go.test", "-test.run", f"^{test[0]}")
        if language == "Rust":
            words = ["--offline", "--locked", "-p", "kotskhin", "--test", test[0], "--", "--exact", test[1]]
            return self.told("sdk/rust", "cargo", "test", "-q", *words)
        return self.in_cpp(*test)

    def in_cpp(self, name, *libraries):
        """The status of a program of C++, and what it prints. What opens libraries gets one."""
        command = ["g++", "-std=c++17", "-O0", f"-I{self.room}/sdk/cpp", f"-I{self.kit}/include"]
        linked = [f"-L{self.kit}/lib", "-lkotskhin", "-pthread", "-ldl"]
        for library in libraries:
            flags = subprocess.run(["pkg-config", "--cflags", "--libs", library], capture_output=True, text=True, check=True).stdout
            linked += [f"-DWITH_{library.removeprefix('lib').upper()}", *flags.split()]
        program, opened, words = f"{self.room}/{name}", f"{self.room}/opened.so", []
        parts = [(f"{name}.cpp", program, [])]
        if name == "plugin":
            words, parts = [opened], [("plugin_library.cpp", opened, ["-shared", "-fPIC", "-fvisibility=hidden"]), *parts]
        for source, into, more in parts:
            made = self.told("tests/sdk/cpp", *command, *more, source, *linked, "-o", into)
            if made[0]:
                return made
        return self.told(".", program, *words)

    def passes(self, language, test):
        status, printed = self.ran(language, test)
        self.say(f"{language}: {' '.join(test)}", f"status {status}\n{printed}" if status else None)

    def fails(self, bug):
        file = self.place(bug.file)
        text = file.read_text(encoding="utf-8")
        fault = f"its old text stands {text.count(bug.old)} times in {bug.file}" if text.count(bug.old) != 1 else None
        if not fault:
            file.write_text(text.replace(bug.old, bug.new), encoding="utf-8")
            status, printed = self.ran(bug.language, bug.test)
            file.write_text(text, encoding="utf-8")
            if not status:
                fault = f"{' '.join(bug.test)} passes in spite of it"
            elif bug.tells not in printed:
                fault = f"it is not told by '{bug.tells}':\n{printed}"
        self.say(f"{bug.language}: {bug.name}: is seen", fault)

    def tried(self, bugs):
        """Tries the bugs of one language, one after another."""
        for test in dict.fromkeys(it.test for it in bugs):
            self.passes(bugs[0].language, test)
        for bug in bugs:
            self.fails(bug)


def main():
    began, word = time.time(), sys.argv[2] if sys.argv[2:] else ""
    left = {it for it, names in MORE.items() if not there.has(it, *names)}
    tried = [it for it in BUGS if word in f"{it.language}: {it.name}" and left.isdisjoint(it.test)]
    of = {language: [it for it in tried if it.language == language] for language in WANTS}
    lists = [bugs for language, bugs in of.items() if bugs and there.has(language, *WANTS[language])]
    with tempfile.TemporaryDirectory() as room, concurrent.futures.ThreadPoolExecutor() as languages:
        copy = Copy(pathlib.Path(room), pathlib.Path(sys.argv[1]).resolve())
        for _ in languages.map(copy.tried, lists):
            pass
    print(f"{sum(map(len, lists))} bugs, {len(copy.faults)} faults, in {time.time() - began:.0f} s")
    return 1 if copy.faults or not lists else 0


if __name__ == "__main__":
    try:
        sys.exit(main())
    except there.Lacking as fault:
        sys.exit(str(fault))
