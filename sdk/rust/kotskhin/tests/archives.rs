//! Archives, and gateways that forget what these adopted.
#![forbid(unsafe_code)]
use kotskhin::{
    Archive, Ask, Attributes, DEFAULT_LIMIT, Error, Export, Gateway, Instruments, Kind, Plan, Row,
    Taking, Writer,
};

/// The last export of a worker that counted so many sales, by an instrument of one kind or another.
fn sold(kind: Kind, instance: u128, start: u64, sales: i64) -> Result<Export, Error> {
    let mut instruments = Instruments::new();
    instruments.add("app", "sales", "", kind)?;
    let plan = Plan::build(&instruments, DEFAULT_LIMIT)?;
    let mut writer = Writer::start(&plan, "shop", instance, start)?;
    writer.measure(0, &Attributes::none()?, sales)?;
    writer.shutdown(start + 100)
}

/// What a gateway counts of sales that only rise, or of others.
fn sales(gateway: &Gateway, monotonic: bool) -> Result<i128, Error> {
    let rows = gateway
        .rows(&Ask::sum("app", "sales", "", monotonic)?)?
        .all()?;
    Ok(rows.iter().filter_map(Row::sum).sum())
}

#[test]
fn a_gateway_forgets_what_an_archive_adopted() -> Result<(), Error> {
    let last = sold(Kind::Counter, 1, 100, 7)?;
    let mut gateway = Gateway::open(1)?;
    assert_eq!(gateway.take(&last), Ok(Taking::Taken(1)));
    assert_eq!(gateway.take(&last), Ok(Taking::Stale));
    let mut archive = Archive::begin_under("shop", 7, 1000, 10)?;
    let other = archive.adopt(&gateway, "bank", 1, 100);
    assert_eq!(other, Err(Error::OtherService));
    archive.adopt(&gateway, "shop", 1, 100)?;
    let again = archive.adopt(&gateway, "shop", 1, 100);
    assert_eq!(again, Err(Error::Adopted));
    assert_eq!(archive.seal(2000), Err(Error::Unexported));
    assert_eq!(archive.export(1000).err(), Some(Error::TimeNotLater));
    let adopted = archive.export(1500)?;
    assert_eq!(archive.seal(1500), Err(Error::StartNotLater));
    assert_eq!((archive.start(), archive.adopted()), (Ok(1000), Ok(1)));
    archive.seal(2000)?;
    assert_eq!((archive.start(), archive.adopted()), (Ok(2000), Ok(0)));
    assert_eq!(gateway.take(&adopted), Ok(Taking::Taken(2)));
    assert_eq!(gateway.take(&last), Ok(Taking::Late));
    assert_eq!((gateway.head()?.id, gateway.head()?.points), (1, 2));
    assert_eq!(sales(&gateway, true), Ok(7));
    let mut peer = Gateway::open(2)?;
    let answer = peer.hand(&gateway.send(2)?)?.expect("it is answered");
    assert!(gateway.hand(&answer)?.is_none());
    assert_eq!(peer.take(&last), Ok(Taking::Late));
    assert_eq!(peer.merge(&gateway), Ok(0));
    Ok(())
}

/// A gateway that nobody told of archives takes all that comes, in whatever order and way: each sale counts once.
#[test]
fn what_was_adopted_counts_once_at_every_gateway() -> Result<(), Error> {
    let ended = sold(Kind::Counter, 1, 100, 7)?;
    let live = sold(Kind::Counter, 2, 100, 5)?;
    let mut holder = Gateway::open(1)?;
    holder.take(&ended)?;
    let mut archive = Archive::begin("shop", 10)?;
    archive.adopt(&holder, "shop", 1, 100)?;
    let adopted = archive.export(1000)?;
    for order in [
        [&ended, &live, &adopted],
        [&adopted, &live, &ended],
        [&live, &adopted, &ended],
        [&ended, &adopted, &live],
    ] {
        let mut gateway = Gateway::open(2)?;
        for export in order {
            gateway.take(export)?;
        }
        assert_eq!(sales(&gateway, true), Ok(12));
        // (by a merge, by bytes and by a message it is as by the exports)
        let (mut merged, mut brought, mut told) =
            (Gateway::open(3)?, Gateway::open(4)?, Gateway::open(5)?);
        for one in [&mut merged, &mut brought, &mut told] {
            one.take(&ended)?;
        }
        merged.merge(&gateway)?;
        brought.merge_bytes(&gateway.encode()?)?;
        told.hand(&gateway.send(5)?)?;
        for one in [&merged, &brought, &told] {
            assert_eq!((sales(one, true), one.same(&gateway)), (Ok(12), Ok(true)));
        }
    }
    Ok(())
}

/// A page shows a metric as the youngest incarnation has it: that is a worker, however late an archive began.
#[test]
fn an_archive_of_an_old_plan_hides_no_live_metric() -> Result<(), Error> {
    let mut gateway = Gateway::open(1)?;
    gateway.take(&sold(Kind::Counter, 1, 100, 7)?)?;
    gateway.take(&sold(Kind::UpDown, 2, 500, -3)?)?;
    let (mut archive, mut other) = (Archive::begin("shop", 10)?, Archive::begin("shop", 10)?);
    assert_eq!((archive.start(), other.start()), (Ok(1), Ok(1)));
    assert_ne!(archive.instance(), other.instance());
    archive.adopt(&gateway, "shop", 1, 100)?;
    let adopted = archive.export(1000)?;
    let head = adopted.head()?;
    assert_eq!((head.instance, head.start), (archive.instance(), 1));
    gateway.take(&adopted)?;
    let page = gateway.prometheus(None)?;
    assert!(page.contains("# TYPE sales gauge\n"), "{page}");
    let is_live = |line: &str| line.starts_with("sales{") && line.ends_with(" -3");
    assert!(page.lines().any(is_live), "{page}");
    assert!(!page.contains("sales_total"), "{page}");
    // (what both adopt keeps its total: of two archives none is taken for the other)
    other.adopt(&gateway, "shop", 2, 500)?;
    gateway.take(&other.export(1000)?)?;
    assert_eq!(sales(&gateway, true), Ok(7));
    assert_eq!(sales(&gateway, false), Ok(-3));
    Ok(())
}
