//! What is logged where a host has no hooks: lines on the standard error, which a process of their own has.
#![forbid(unsafe_code)]
use kotskhin::Export;
use kotskhin::metrics::{ExportError, KeyValue, PeriodicReader, SdkMeterProvider};
use std::env;
use std::error::Error as AnyError;
use std::io::{self, Read};
use std::process::{Command, Stdio};
use std::time::Duration;

type Done = Result<(), Box<dyn AnyError>>;

/// Which of these tests performs what it is about, in a process of its own.
const PERFORMS: &str = "KOTSKHIN_TEST_PERFORMS";
/// A day: no test waits for it.
const NEVER: Duration = Duration::from_secs(86_400);

/// The lines that a test logs in a process of its own; nothing in that process, which performs.
fn logged(test: &str) -> Result<Option<Vec<String>>, Box<dyn AnyError>> {
    if env::var(PERFORMS).is_ok_and(|name| name == test) {
        return Ok(None);
    }
    let told = Command::new(env::current_exe()?)
        .args(["--exact", test, "--nocapture"])
        .env(PERFORMS, test)
        .stdin(Stdio::null())
        .output()?;
    let lines = String::from_utf8(told.stderr)?;
    assert!(told.status.success(), "{lines}");
    let lines = lines.lines().filter(|line| line.starts_with("kotskhin"));
    Ok(Some(lines.map(str::to_owned).collect()))
}

fn perform_refusals() {
    let provider = SdkMeterProvider::builder()
        .with_cardinality_limit(1)
        .build();
    let meter = provider.meter("app");
    for _ in 0..3 {
        let _ = meter.u64_counter("9\nlives\u{1b}[0m").build();
    }
    let requests = meter.u64_counter("requests").build();
    for of in 0..4 {
        requests.add(u64::MAX, &[]);
        requests.add(1, &[KeyValue::new("", 1)]);
        requests.add(1, &[KeyValue::new("of", of)]);
    }
    let _ = (provider.collect(), provider.collect());
    let late = meter.u64_counter("late").build();
    late.add(1, &[]);
    late.add(u64::MAX, &[]);
}

#[test]
fn the_first_refusal_of_each_kind_is_a_line() -> Done {
    let Some(lines) = logged("the_first_refusal_of_each_kind_is_a_line")? else {
        perform_refusals();
        return Ok(());
    };
    let wanted = [
        (
            "kotskhin: BadName: '9lives[0m', declared at ",
            ", is refused: a name ",
        ),
        (
            "kotskhin: ValueTooWide: 'requests', declared at ",
            ": 1 refused: the value 1844",
        ),
        (
            "kotskhin: EmptyKey: 'requests', declared at ",
            ": 1 refused: a key is empty (pair 0)",
        ),
        (
            "kotskhin: CardinalityLimit: 'requests': its limit of 1 sets",
            "otel.metric.overflow=true",
        ),
        (
            "kotskhin: DeclaredLate: 'late', declared at ",
            "is refused: the provider had",
        ),
        (
            "kotskhin: ValueTooWide: 'late', declared at ",
            ": 1 refused: the value 1844",
        ),
    ];
    assert_eq!(lines.len(), wanted.len(), "{lines:#?}");
    for (line, (begins, has)) in lines.iter().zip(wanted) {
        assert!(line.starts_with(begins) && line.contains(has), "{line}");
    }
    Ok(())
}

#[test]
fn lines_have_a_bound() -> Done {
    let Some(lines) = logged("lines_have_a_bound")? else {
        let provider = SdkMeterProvider::builder().build();
        for number in 0..1200 {
            let _ = provider
                .meter("app")
                .u64_counter(format!("{number}"))
                .build();
        }
        return Ok(());
    };
    assert_eq!(lines.len(), 1000);
    Ok(())
}

#[test]
fn who_has_a_hook_has_no_lines() -> Done {
    let Some(lines) = logged("who_has_a_hook_has_no_lines")? else {
        let exporter = |_: &Export| -> Result<(), ExportError> { Err("down".into()) };
        let reader = PeriodicReader::builder(exporter).on_failed(|_| ());
        let provider = SdkMeterProvider::builder()
            .with_reader(reader.with_interval(NEVER).build())
            .on_refused(|_| ())
            .build();
        let requests = provider.meter("app").u64_counter("requests").build();
        requests.add(u64::MAX, &[]);
        requests.add(1, &[]);
        assert!(provider.force_flush().is_err());
        return Ok(());
    };
    assert_eq!(lines, [""; 0]);
    Ok(())
}

/// What is refused inside a hook has its line, since no hook is told.
#[test]
fn what_a_hook_is_refused_is_a_line() -> Done {
    let Some(lines) = logged("what_a_hook_is_refused_is_a_line")? else {
        let other = SdkMeterProvider::builder().on_refused(|_| ()).build();
        let refusals = other.meter("app").u64_counter("refusals").build();
        let provider = SdkMeterProvider::builder()
            .on_refused(move |_| refusals.add(u64::MAX, &[]))
            .build();
        let requests = provider.meter("app").u64_counter("requests").build();
        requests.add(u64::MAX, &[]);
        requests.add(u64::MAX, &[]);
        assert_eq!((provider.refused(), other.refused()), (2, 2));
        return Ok(());
    };
    assert_eq!(lines.len(), 1, "{lines:#?}");
    assert!(lines[0].starts_with("kotskhin: ValueTooWide: 'refusals', declared at "));
    Ok(())
}

#[test]
fn the_first_failure_of_each_reason_in_a_row_is_a_line() -> Done {
    let test = "the_first_failure_of_each_reason_in_a_row_is_a_line";
    let Some(lines) = logged(test)? else {
        let mut answers = ["a", "a", "b\nb", "a", "", "a", "a"].into_iter();
        let exporter = move |_: &Export| -> Result<(), ExportError> {
            match answers.next().unwrap_or_default() {
                "" => Ok(()),
                why => Err(why.into()),
            }
        };
        let reader = PeriodicReader::builder(exporter).with_interval(NEVER);
        let provider = SdkMeterProvider::builder()
            .with_reader(reader.build())
            .build();
        let requests = provider.meter("app").u64_counter("requests").build();
        requests.add(1, &[]);
        for _ in 0..7 {
            let _ = provider.force_flush();
        }
        assert_eq!(provider.failed(), 6);
        return Ok(());
    };
    let line = |why: &str| format!("kotskhin: the export was not brought: {why}");
    assert_eq!(lines, [line("a"), line("bb"), line("a"), line("a")]);
    Ok(())
}

/// A standard error that takes nothing harms no recording.
#[test]
fn a_closed_standard_error_harms_nobody() -> Done {
    let test = "a_closed_standard_error_harms_nobody";
    if env::var(PERFORMS).is_ok_and(|name| name == test) {
        // (until nobody reads the standard error any more)
        io::stdin().read_to_string(&mut String::new())?;
        perform_refusals();
        return Ok(());
    }
    let mut process = Command::new(env::current_exe()?)
        .args(["--exact", test, "--nocapture"])
        .env(PERFORMS, test)
        .stdin(Stdio::piped())
        .stdout(Stdio::null())
        .stderr(Stdio::piped())
        .spawn()?;
    drop(process.stderr.take());
    drop(process.stdin.take());
    assert!(process.wait()?.success());
    Ok(())
}
