//! OpenTelemetry's names: the first program of docs/use/RUST.md.
use kotskhin::metrics::{ConsoleExporter, KeyValue, Resource, SdkError, SdkMeterProvider};

fn main() -> Result<(), SdkError> {
    let provider = SdkMeterProvider::builder()
        .with_resource(Resource::builder().with_service_name("shop").build())
        .with_periodic_exporter(ConsoleExporter::default())
        .build();
    let meter = provider.meter("shop.orders");
    let requests = meter.u64_counter("requests").with_unit("1").build();
    for status in [200, 200, 500] {
        requests.add(1, &[KeyValue::new("status", status)]);
    }
    provider.shutdown()
}
