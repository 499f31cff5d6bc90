//! An archive adopts a worker, a gateway forgets it, and no total moves: the third program of docs/use/RUST.md.
use kotskhin::metrics::{Resource, SdkError, SdkMeterProvider};
use kotskhin::{Archive, Ask, Gateway, now};

/// A worker that sold seven.
fn worker() -> SdkMeterProvider {
    let shop = Resource::builder().with_service_name("shop").build();
    let worker = SdkMeterProvider::builder().with_resource(shop).build();
    let sales = worker.meter("app").u64_counter("sales").build();
    sales.add(7, &[]);
    worker
}

fn main() -> Result<(), SdkError> {
    let (worker, ask) = (worker(), Ask::sum("app", "sales", "", true)?);
    let (mut gateway, mut archive) = (Gateway::open(1)?, Archive::begin("shop", 1000)?);
    gateway.take(&worker.collect()?)?;
    for ended in gateway.incarnations()? {
        archive.adopt(&gateway, &ended.service, ended.instance, ended.start)?;
    }
    gateway.take(&archive.export(now())?)?;
    println!("{:?}", gateway.take(&worker.collect()?)?);
    print!("{}", gateway.table(&ask)?);
    Ok(())
}
