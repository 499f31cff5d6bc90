//! Which streams have as many sets of attributes as they may.
use crate::ask::Ask;
use crate::error::Error;
use crate::export::Export;
use crate::gateway::Gateway;
use crate::streams::Streams;

/// What is known of a stream.
#[derive(Clone, Default)]
struct Seen {
    /// How many sets it had, when the export had so many points.
    sets: u64,
    points: u64,
    is_told: bool,
}

/// Looks at exports for streams that came to their limit.
pub(super) struct Limits {
    limit: u64,
    streams: Vec<Seen>,
}

impl Limits {
    pub fn new(limit: u64, streams: usize) -> Limits {
        Limits {
            limit,
            streams: vec![Seen::default(); streams],
        }
    }

    /// The numbers of the streams that have more sets than the limit, each once. A stream is looked at only where so many points have
    /// come that it may have: points never go.
    pub fn find_reached(
        &mut self,
        streams: &Streams,
        export: &Export,
    ) -> Result<Vec<usize>, Error> {
        let (limit, points) = (self.limit, export.head()?.points as u64);
        let may_be = |stream: &Seen| {
            let come = points.saturating_sub(stream.points);
            !stream.is_told && stream.sets.saturating_add(come) > limit
        };
        if !self.streams.iter().any(may_be) {
            return Ok(Vec::new());
        }
        let mut gateway = Gateway::open(0)?;
        gateway.take(export)?;
        let mut reached = Vec::new();
        for (number, stream) in self.streams.iter_mut().enumerate() {
            if may_be(stream) {
                let rows = gateway.rows(&Ask::stream(streams, number)?)?;
                stream.sets = rows.count()? as u64;
                stream.points = points;
                stream.is_told = stream.sets > limit;
                reached.extend(stream.is_told.then_some(number));
            }
        }
        Ok(reached)
    }
}
