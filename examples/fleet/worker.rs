//! A worker in Rust: worker SERVICE RECORDINGS GATEWAY.. . It pushes to the first gateway that takes what it has, and prints what it
//! counted.
use kotskhin::metrics::{
    FirstOf, HttpExporter, KeyValue, PeriodicReader, PushExporter, Resource, SdkMeterProvider,
};
use std::time::Duration;
use std::{env, error, thread};

fn main() -> Result<(), Box<dyn error::Error>> {
    let words: Vec<String> = env::args().collect();
    let (service, recordings) = (&words[1], words[2].parse::<u64>()?);
    let mut exporters: Vec<Box<dyn PushExporter>> = Vec::new();
    for word in &words[3..] {
        let exporter = HttpExporter::new(&format!("{word}/v1/metrics"))?;
        exporters.push(Box::new(exporter.with_timeout(Duration::from_secs(2))));
    }
    let reader = PeriodicReader::builder(FirstOf::new(exporters))
        .with_interval(Duration::from_millis(200))
        .on_failed(|_| ());
    let provider = SdkMeterProvider::builder()
        .with_resource(Resource::builder().with_service_name(service).build())
        .with_reader(reader.build())
        .build();
    let meter = provider.meter("fleet");
    let requests = meter.u64_counter("requests").with_unit("1").build();
    let mut counted = 0;
    for number in 0..recordings {
        let route = if number % 2 == 1 { "/" } else { "/pay" };
        requests.add(number % 5, &[KeyValue::new("route", route)]);
        counted += number % 5;
        thread::sleep(Duration::from_millis(2));
    }
    provider.shutdown()?;
    println!("rust {service} {counted}");
    Ok(())
}
