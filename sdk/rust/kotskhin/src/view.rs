//! Views.
use crate::error::{Error, check};
use crate::handle::Handle;
use crate::plan::Kind;
use kotskhin_sys::{
    self as sys, kit_keys_add, kit_view_aggregation, kit_view_buckets, kit_view_keep,
    kit_view_kind, kit_view_of_every, kit_view_of_name, kit_view_rename, kit_view_scope,
    kit_views_add,
};

/// What a view makes of values.
#[derive(Clone, Copy, Debug, PartialEq, Eq)]
pub enum Aggregation<'a> {
    /// As the kind of the instrument does.
    Default,
    Sum,
    LastValue,
    /// A histogram of these bounds.
    Buckets(&'a [i64]),
    /// No stream at all.
    Drop,
}

/// A view: which instruments it matches, and what is made of their recordings (OpenTelemetry Metrics SDK, "View").
#[derive(Debug)]
pub struct View(Handle<sys::View>);

impl View {
    /// Of the instruments of one name, but for the case of ASCII letters. It changes nothing yet.
    pub fn of_name(name: &str) -> Result<View, Error> {
        let mut view = Handle::empty();
        // SAFETY: the handle is ours alone, and the text is a slice's pointer and length.
        check(unsafe { kit_view_of_name(view.change(), name.as_ptr(), name.len()) })?;
        Ok(View(view))
    }

    /// Of all instruments. It changes nothing yet.
    pub fn of_every() -> Result<View, Error> {
        let mut view = Handle::empty();
        // SAFETY: the handle is ours alone.
        check(unsafe { kit_view_of_every(view.change()) })?;
        Ok(View(view))
    }

    /// From now on of one kind.
    pub fn kind(&mut self, kind: Kind) -> Result<(), Error> {
        // SAFETY: the handle is ours alone.
        check(unsafe { kit_view_kind(self.0.change(), kind as u8) })
    }

    /// From now on of one scope.
    pub fn scope(&mut self, scope: &str) -> Result<(), Error> {
        // SAFETY: the handle is ours alone, and the text is a slice's pointer and length.
        check(unsafe { kit_view_scope(self.0.change(), scope.as_ptr(), scope.len()) })
    }

    /// From now on its stream has this name.
    pub fn rename(&mut self, name: &str) -> Result<(), Error> {
        // SAFETY: as above.
        check(unsafe { kit_view_rename(self.0.change(), name.as_ptr(), name.len()) })
    }

    /// From now on its stream keeps these keys of attributes alone.
    pub fn keep<'a>(&mut self, keys: impl IntoIterator<Item = &'a str>) -> Result<(), Error> {
        let mut list = Handle::empty();
        for key in keys {
            // SAFETY: as above.
            check(unsafe { kit_keys_add(list.change(), key.as_ptr(), key.len()) })?;
        }
        // SAFETY: both handles are ours alone, and they are two.
        check(unsafe { kit_view_keep(self.0.change(), list.change()) })
    }

    /// From now on it aggregates so.
    pub fn aggregate(&mut self, aggregation: Aggregation) -> Result<(), Error> {
        let number = match aggregation {
            Aggregation::Default => 0,
            Aggregation::Sum => 1,
            Aggregation::LastValue => 2,
            Aggregation::Drop => 3,
            Aggregation::Buckets(bounds) => {
                // SAFETY: the handle is ours alone, and the bounds are a slice's pointer and length.
                return check(unsafe {
                    kit_view_buckets(self.0.change(), bounds.as_ptr(), bounds.len())
                });
            }
        };
        // SAFETY: the handle is ours alone.
        check(unsafe { kit_view_aggregation(self.0.change(), number) })
    }
}

/// Views, numbered from 0 in the order in which they are added.
#[derive(Debug)]
pub struct Views(pub(crate) Handle<sys::Views>);

impl Default for Views {
    fn default() -> Views {
        Views::new()
    }
}

impl Views {
    pub const fn new() -> Views {
        Views(Handle::empty())
    }

    /// Adds a copy of a view.
    pub fn add(&mut self, view: &View) -> Result<(), Error> {
        // SAFETY: the views are ours alone, and the view is lent; they are two.
        check(unsafe { kit_views_add(self.0.change(), view.0.read().at()) })
    }
}
