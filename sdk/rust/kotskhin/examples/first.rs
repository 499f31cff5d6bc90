//! Two recordings, one collection, one delivery, one table: the script of examples/first.otm, in safe Rust.
#![forbid(unsafe_code)]
use kotskhin::metrics::{SdkError, SdkMeterProvider};
use kotskhin::{Ask, Gateway};

fn main() -> Result<(), SdkError> {
    let provider = SdkMeterProvider::builder().build();
    let meter = provider.meter("app");
    let requests = meter.u64_counter("requests").with_unit("1").build();
    requests.add(3, &[]);
    requests.add(4, &[]);

    let mut gateway = Gateway::open(1)?;
    gateway.take(&provider.collect()?)?;
    let ask = Ask::sum("app", "requests", "1", true)?;
    print!("{}", gateway.table(&ask)?);
    Ok(())
}
