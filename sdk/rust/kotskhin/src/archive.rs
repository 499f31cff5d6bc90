//! Archives, which adopt what has ended.
use crate::error::{Error, check};
use crate::export::Export;
use crate::gateway::Gateway;
use crate::handle::Handle;
use crate::writer::draw_instance;
use kotskhin_sys::{
    self as sys, kit_archive_adopt, kit_archive_begin, kit_archive_export, kit_archive_read,
    kit_archive_seal,
};

/// A writer that adopts ended incarnations of its service.
///
/// Its exports have their sums and histograms, added up, and a tombstone for each: [`Gateway`]s that take one forget the points of what
/// it names, and no total moves. Gauges are not adopted, and are shown no more.
#[derive(Debug)]
pub struct Archive {
    archive: Handle<sys::Archive>,
    instance: u128,
}

/// Since when an archive counts where nothing else is said: before every worker. A page shows a metric as the youngest of those who have it
/// says, and an archive that began after the workers would show an old plan's in the place of a live one.
const START: u64 = 1;

impl Archive {
    /// An archive that adopted nothing, with at most `limit` totals. It begins under the start 1, before every worker, and under an instance
    /// that is drawn anew. Refused: `NoMemory`.
    pub fn begin(service: &str, limit: usize) -> Result<Archive, Error> {
        Archive::begin_under(service, draw_instance(), START, limit)
    }

    /// The same under an identity that the caller says, for tests that compare it. Of two archives that share service, instance and start a
    /// gateway keeps one's totals alone.
    #[doc(hidden)]
    pub fn begin_under(
        service: &str,
        instance: u128,
        start: u64,
        limit: usize,
    ) -> Result<Archive, Error> {
        let mut archive = Handle::empty();
        // SAFETY: the archive is ours alone, and the text is a slice's pointer and length.
        check(unsafe {
            kit_archive_begin(
                archive.change(),
                service.as_ptr(),
                service.len(),
                (instance >> 64) as u64,
                instance as u64,
                start,
                limit,
            )
        })?;
        Ok(Archive { archive, instance })
    }

    /// Adopts what a gateway holds of an incarnation, and leaves the gateway as it is. It is for one that has ended: what it exports later
    /// is never counted.
    ///
    /// Refused, by the first that fits: `OtherService`, `IsArchive`, `Adopted`, `NoPoint`, `Conflict`, `Torn`, `Unsound`, `OutOfRange`,
    /// `SetLimit`; and `NoMemory`.
    pub fn adopt(
        &mut self,
        gateway: &Gateway,
        service: &str,
        instance: u128,
        start: u64,
    ) -> Result<(), Error> {
        // SAFETY: the archive is ours alone, and the gateway is lent; they are two. The text is a slice's pointer and length.
        check(unsafe {
            kit_archive_adopt(
                self.archive.change(),
                gateway.0.read().at(),
                service.as_ptr(),
                service.len(),
                (instance >> 64) as u64,
                instance as u64,
                start,
            )
        })
    }

    /// All totals, and a tombstone for each incarnation that it adopted since it began or was sealed. Refused: `TimeNotLater`, `NoMemory`.
    pub fn export(&mut self, time: u64) -> Result<Export, Error> {
        let mut export = Handle::empty();
        // SAFETY: both handles are ours alone, and they are two.
        check(unsafe { kit_archive_export(self.archive.change(), time, export.change()) })?;
        Ok(Export(export))
    }

    /// Begins anew under a later start, without totals; what it adopted it never adopts again. It makes no other export with these
    /// totals: so keep the last one until it has come where it is to. Refused: `StartNotLater`, `Unexported`.
    pub fn seal(&mut self, start: u64) -> Result<(), Error> {
        // SAFETY: the archive is ours alone.
        check(unsafe { kit_archive_seal(self.archive.change(), start) })
    }

    /// The instance under which it exports.
    pub fn instance(&self) -> u128 {
        self.instance
    }

    /// Since when it counts.
    pub fn start(&self) -> Result<u64, Error> {
        Ok(self.read()?.0)
    }

    /// How many incarnations it adopted since it began or was sealed.
    pub fn adopted(&self) -> Result<usize, Error> {
        Ok(self.read()?.1)
    }

    fn read(&self) -> Result<(u64, usize), Error> {
        let (mut start, mut adopted) = (0, 0);
        // SAFETY: the archive is lent.
        check(unsafe { kit_archive_read(self.archive.read().at(), &mut start, &mut adopted) })?;
        Ok((start, adopted))
    }
}
