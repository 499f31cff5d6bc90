//! Pushes to the first of several gateways that takes what it has: first_of GATEWAY.. . docs/use/RUST.md has it.
use kotskhin::metrics::{
    FirstOf, HttpExporter, PeriodicReader, PushExporter, Resource, SdkMeterProvider,
};
use std::error::Error;
use std::time::Duration;

fn main() -> Result<(), Box<dyn Error>> {
    let mut gateways: Vec<Box<dyn PushExporter>> = Vec::new();
    for url in std::env::args().skip(1) {
        let gateway = HttpExporter::new(&format!("{url}/v1/metrics"))?;
        gateways.push(Box::new(gateway.with_timeout(Duration::from_secs(5))));
    }
    let provider = SdkMeterProvider::builder()
        .with_resource(Resource::builder().with_service_name("bank").build())
        .with_reader(PeriodicReader::builder(FirstOf::new(gateways)).build())
        .build();
    let meter = provider.meter("bank.tills");
    meter.u64_counter("transfers").build().add(1, &[]);
    Ok(provider.shutdown()?)
}
