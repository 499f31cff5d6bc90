//! Why a call is refused.
use kotskhin_sys::{self as sys, kit_code_text};
use std::fmt;

/// Makes an enum of refusals: each variant once, with its places and its code in the library. What a code says is asked of the library.
macro_rules! refusals {
    (
        $(#[$of_all:meta])*
        enum $all:ident {
            $($(#[$page:meta])* $name:ident $({ $($place:ident),+ })? = $code:ident,)+
        }
        $(beside {
            $($other:tt)+
        })?
    ) => {
        $(#[$of_all])*
        #[derive(Clone, Copy, Debug, PartialEq, Eq)]
        #[non_exhaustive]
        pub enum $all {
            $($(#[$page])* $name $({ $($place: u64),+ })?,)+
            $($($other)+)?
        }

        impl $all {
            /// That of a code, with the places that it tells.
            fn try_from_code(code: i32, place: u64, second: u64) -> Option<$all> {
                #[allow(unused_mut)]
                let mut places = [place, second].into_iter();
                Some(match code {
                    $(sys::$code => $all::$name $({ $($place: places.next()?),+ })?,)+
                    _ => return None,
                })
            }

            /// Its name, its code, and the places that it tells.
            fn to_parts(self) -> Option<(&'static str, i32, Vec<u64>)> {
                #[allow(unreachable_patterns)]
                Some(match self {
                    $($all::$name $({ $($place),+ })? => (stringify!($name), sys::$code, vec![$($($place),+)?]),)+
                    _ => return None,
                })
            }
        }
    };
}

refusals! {
    /// Why a call is refused. A refused call changed nothing. Places count from 0, and each is the least at which the refusal fits.
    ///
    /// It is shown as what the library says of it, with its places.
    enum Error {
        /// Memory was refused.
        NoMemory = NO_MEMORY,
        /// The writer holds nothing under this number.
        NoHeld = NO_HELD,
        /// There is no row of this number.
        NoRow = NO_ROW,
        /// There is no point of what is asked for.
        NoPoint = NO_POINT,
        /// There is no item of this number.
        NoItem = NO_ITEM,
        /// The message goes to another id.
        NotAddressed = NOT_ADDRESSED,
        /// The writer was shut down, and not restarted since.
        Closed = CLOSED,
        /// The plan has no instrument of this number.
        NoInstrument = NO_INSTRUMENT,
        /// A counter or a histogram takes no value below 0.
        Negative = NEGATIVE,
        /// A total of this stream would leave its range.
        Overflow { stream } = OVERFLOW,
        /// The time is not after this one, that of the last collection or of the start.
        TimeNotAfter { last } = TIME_NOT_AFTER,
        /// The new start is not after this one, the start so far.
        StartNotAfter { start } = START_NOT_AFTER,
        /// Another thread's call has the writer that is shared.
        Busy = BUSY,
        /// The writer that is shared accepted 2^62 changes.
        Exhausted = EXHAUSTED,
        /// The writer that is shared gave 4,096 seats.
        SeatsFull = SEATS_FULL,
        /// The recorder has as many recordings as it may: a writer takes them in first. Or the number is 2^32 or more.
        RecorderFull = RECORDER_FULL,
        /// The key of this pair is empty.
        EmptyKey { pair } = EMPTY_KEY,
        /// The name of this instrument breaks the rule of names.
        BadName { instrument } = BAD_NAME,
        /// The unit of this instrument breaks the rule of units.
        BadUnit { instrument } = BAD_UNIT,
        /// The bounds of this view do not strictly rise, or are more than 1,024.
        BadBounds { view } = BAD_BOUNDS,
        /// The new name that this view gives breaks the rule of names.
        BadRename { view } = BAD_RENAME,
        /// This view matches every name, and gives a new one.
        WildcardRename { view } = WILDCARD_RENAME,
        /// This instrument is matched by this view, whose aggregation does not fit its kind.
        BadAggregation { instrument, view } = BAD_AGGREGATION,
        /// These instruments feed one stream.
        SameStream { first, second } = SAME_STREAM,
        /// The limit is 0.
        BadLimit = BAD_LIMIT,
        /// The scope of this instrument is that of tombstones, `kotskhin.archive`: archives alone have points there.
        ReservedScope { instrument } = RESERVED_SCOPE,
        /// The bytes end at this place, within the export or the message.
        Truncated { at } = TRUNCATED,
        /// The byte at this place is not that of an export, or of a message.
        BadMagic { at } = BAD_MAGIC,
        /// The version at this place is not known.
        BadVersion { at } = BAD_VERSION,
        /// The value at this place is not in its one form.
        NotCanonical { at } = NOT_CANONICAL,
        /// The text at this place is not UTF-8.
        NotText { at } = NOT_TEXT,
        /// The checksum at this place is not that of the bytes before it.
        BadChecksum { at } = BAD_CHECKSUM,
        /// The values of the bytes make no export, or a point of a message is none that an export brings.
        BadExport = BAD_EXPORT,
        /// The bounds of this point do not rise as doubles, which OTLP has.
        OtlpBounds { point } = OTLP_BOUNDS,
        /// The request has more bytes than one may have, 2^31 - 1.
        TooLong = TOO_LONG,
        /// A service, a scope, a name or a unit has more than 1,024 bytes: of a request of OTLP that which begins at this place.
        TooLongText { at } = TOO_LONG_TEXT,
        /// This point has more than 128 attributes.
        TooManyAttributes { point } = TOO_MANY_ATTRIBUTES,
        /// This export of a request of OTLP has a point in the scope of tombstones, `kotskhin.archive`, which would hide points of others.
        ReservedPoint { export } = RESERVED_POINT,
        /// The incarnation is of another service than the archive.
        OtherService = OTHER_SERVICE,
        /// The incarnation is an archive's.
        IsArchive = IS_ARCHIVE,
        /// The archive adopted the incarnation before, be it before it was sealed.
        Adopted = ADOPTED,
        /// A point of the incarnation is a conflict: two writers shared the identity.
        Conflict = CONFLICT,
        /// The points of the incarnation are not all of one time: not all of its last collection has come.
        Torn = TORN,
        /// No export has the points of the incarnation.
        Unsound = UNSOUND,
        /// The start or the time of the incarnation is at or above 2^63 - 1, or a total would leave its range.
        OutOfRange = OUT_OF_RANGE,
        /// The archive would have more totals than its limit.
        SetLimit = SET_LIMIT,
        /// The time is not later than that of the archive's last export, or than its start.
        TimeNotLater = TIME_NOT_LATER,
        /// The start is not later than the archive's last export, or than its start.
        StartNotLater = START_NOT_LATER,
        /// The archive adopted incarnations since its last export.
        Unexported = UNEXPORTED,
    }
    beside {
        /// The bytes are no request of OTLP, or say what no export has.
        Request(RequestFault),
        /// The value is above 2^63 - 1, the greatest that the kit records.
        ValueTooWide { value: u64 },
        /// Nothing is collected before the provider starts.
        NotStarted,
        /// The provider had started before the instrument was declared.
        DeclaredLate,
        /// The stream has as many sets of attributes as have points of their own. It counts further ones together.
        CardinalityLimit { limit: u64 },
        /// It was made before a fork, by another process: this one makes its own.
        Forked,
        /// A code that these types make impossible: `NOTHING`, `WRONG_KIND`, `FULL`, `BAD_NUMBER`, `WRONG_SHAPE`, or none of the kit's.
        Unexpected(i32),
    }
}

refusals! {
    /// What a request of OTLP says that no export has, or bytes that are no request. Places count from 0, in the order of the request.
    enum RequestFault {
        /// Bytes begin no field that can stand there.
        Malformed { at } = MALFORMED,
        /// A resource names no service.
        NoService { resource } = NO_SERVICE,
        /// A resource names no instance.
        NoInstance { resource } = NO_INSTANCE,
        /// The instance of a resource is no UUID.
        NotUuid { resource } = NOT_UUID,
        /// A scope comes in two versions.
        ScopeTwice { scope } = SCOPE_TWICE,
        /// A metric is an exponential histogram.
        ExponentialHistogram { metric } = EXPONENTIAL_HISTOGRAM,
        /// A metric is a summary.
        Summary { metric } = SUMMARY,
        /// A metric has no data.
        NoData { metric } = NO_DATA,
        /// A metric is told as deltas.
        Delta { metric } = DELTA,
        /// A metric is not said to be cumulative.
        NoTemporality { metric } = NO_TEMPORALITY,
        /// A point has no recorded value.
        NoRecordedValue { point } = NO_RECORDED_VALUE,
        /// The start of a point is not known.
        UnknownStart { point } = UNKNOWN_START,
        /// The value of a point is a double.
        FloatValue { point } = FLOAT_VALUE,
        /// A point has no value.
        NoPointValue { point } = NO_POINT_VALUE,
        /// A histogram has no sum.
        NoSum { point } = NO_SUM,
        /// A double of a histogram is no whole number.
        NotWhole { point } = NOT_WHOLE,
        /// A double of a histogram may stand for several whole numbers.
        Inexact { point } = INEXACT,
        /// The bounds of a histogram do not strictly rise.
        NotRising { point } = NOT_RISING,
        /// A histogram has a least or a greatest value alone.
        HalfRange { point } = HALF_RANGE,
        /// An attribute of a point has no key.
        NoKey { point } = NO_KEY,
        /// Two attributes of a point have one key.
        AttributeTwice { point } = ATTRIBUTE_TWICE,
        /// The value of an attribute is of a kind that is not known.
        AttributeValue { point } = ATTRIBUTE_VALUE,
        /// What a request says together makes no export.
        NoExport { export } = NO_EXPORT,
    }
}

impl Error {
    /// The refusal of a code, with the places that it tells.
    #[cold]
    pub(crate) fn from_code(code: i32, place: u64, second: u64) -> Error {
        let request = || RequestFault::try_from_code(code, place, second).map(Error::Request);
        let known = Error::try_from_code(code, place, second).or_else(request);
        known.unwrap_or(Error::Unexpected(code))
    }

    /// What the library has of it: its name here, its code, and its places. The others are of this crate alone.
    fn library_parts(&self) -> Option<(&'static str, i32, Vec<u64>)> {
        match self {
            Error::Request(fault) => fault.to_parts(),
            other => other.to_parts(),
        }
    }

    /// The name of its variant: of what is wrong with a request, that of the [`RequestFault`].
    pub fn name(&self) -> &'static str {
        match self {
            Error::ValueTooWide { .. } => "ValueTooWide",
            Error::NotStarted => "NotStarted",
            Error::DeclaredLate => "DeclaredLate",
            Error::CardinalityLimit { .. } => "CardinalityLimit",
            Error::Forked => "Forked",
            other => other
                .library_parts()
                .map_or("Unexpected", |(name, _, _)| name),
        }
    }

    /// Its code as `kotskhin.h` has it: none of what this crate refuses by itself.
    pub fn code(&self) -> Option<i32> {
        match self {
            Error::Unexpected(code) => Some(*code),
            other => other.library_parts().map(|(_, code, _)| code),
        }
    }

    /// Its places, each with the word for it, as `("instrument", 3)`.
    pub fn places(&self) -> Vec<(&'static str, u64)> {
        let Some((_, code, places)) = self.library_parts() else {
            return Vec::new();
        };
        sys::places(code).iter().copied().zip(places).collect()
    }

    /// Writes what it says, and its places but for those of which something else is said.
    pub(crate) fn say(&self, f: &mut fmt::Formatter<'_>, named: &[&str]) -> fmt::Result {
        f.write_str(&self.text())?;
        let mut before = " (";
        for (word, place) in self.places() {
            if !named.contains(&word) {
                write!(f, "{before}{word} {place}")?;
                before = ", ";
            }
        }
        f.write_str(if before == ", " { ")" } else { "" })
    }

    fn text(&self) -> String {
        match self {
            Error::ValueTooWide { value } => {
                format!("the value {value} is above 2^63 - 1, the greatest that is recorded")
            }
            Error::NotStarted => "the provider has not started".to_owned(),
            Error::DeclaredLate => {
                "the provider had started before the instrument was declared".to_owned()
            }
            Error::CardinalityLimit { limit } => format!(
                "its limit of {limit} sets of attributes is reached: further sets are counted together in the point otel.metric.overflow=true"
            ),
            Error::Forked => {
                "it was made before a fork, by another process: make one in this process".to_owned()
            }
            Error::Unexpected(code) => format!("unexpected code {code}: {}", code_text(*code)),
            other => other
                .library_parts()
                .map_or(String::new(), |(_, code, _)| code_text(code)),
        }
    }
}

/// What the library says of a code: nothing of one that it has not.
fn code_text(code: i32) -> String {
    let mut none = [];
    // SAFETY: the room is a slice's, here and below.
    let len = unsafe { kit_code_text(code, none.as_mut_ptr(), 0) };
    let mut text = vec![0; len];
    unsafe { kit_code_text(code, text.as_mut_ptr(), text.len()) };
    String::from_utf8_lossy(&text).into_owned()
}

/// What a call answers.
#[inline]
pub(crate) fn check(code: i32) -> Result<(), Error> {
    check_at(code, 0)
}

/// The same of a call that tells a place.
#[inline]
pub(crate) fn check_at(code: i32, place: u64) -> Result<(), Error> {
    check_both(code, place, 0)
}

/// The same of a call that tells two.
#[inline]
pub(crate) fn check_both(code: i32, place: u64, second: u64) -> Result<(), Error> {
    if code == sys::OK {
        Ok(())
    } else {
        Err(Error::from_code(code, place, second))
    }
}

impl fmt::Display for Error {
    fn fmt(&self, f: &mut fmt::Formatter<'_>) -> fmt::Result {
        self.say(f, &[])
    }
}

impl std::error::Error for Error {}

impl fmt::Display for RequestFault {
    fn fmt(&self, f: &mut fmt::Formatter<'_>) -> fmt::Result {
        Error::Request(*self).fmt(f)
    }
}

impl std::error::Error for RequestFault {}

#[cfg(test)]
mod tests {
    use super::{Error, code_text, sys};

    /// Codes that no call of these types answers.
    const IMPOSSIBLE: [i32; 5] = [
        sys::NOTHING,
        sys::WRONG_KIND,
        sys::FULL,
        sys::BAD_NUMBER,
        sys::WRONG_SHAPE,
    ];

    /// A code that the library has and this crate forgot has no name here.
    #[test]
    fn each_code_has_its_refusal_its_text_and_its_places() {
        let mut seen = 0;
        for code in (1..1000).filter(|code| !code_text(*code).is_empty()) {
            let refusal = Error::from_code(code, 3, 4);
            if IMPOSSIBLE.contains(&code) {
                assert_eq!(refusal, Error::Unexpected(code));
                continue;
            }
            seen += 1;
            assert_ne!(refusal, Error::Unexpected(code), "{}", code_text(code));
            assert_eq!(refusal.code(), Some(code));
            let words = sys::places(code);
            let wanted: Vec<(&str, u64)> = words.iter().copied().zip([3, 4]).collect();
            assert_eq!(refusal.places(), wanted, "{refusal:?}");
            let places: Vec<String> = wanted
                .iter()
                .map(|(word, place)| format!("{word} {place}"))
                .collect();
            let shown = match places.is_empty() {
                true => code_text(code),
                false => format!("{} ({})", code_text(code), places.join(", ")),
            };
            assert_eq!(refusal.to_string(), shown);
            assert!(format!("{refusal:?}").contains(refusal.name()));
        }
        assert!(seen > 70, "there are few codes");
    }

    #[test]
    fn what_this_crate_refuses_has_no_code() {
        for (refusal, name) in [
            (Error::ValueTooWide { value: 1 << 63 }, "ValueTooWide"),
            (Error::NotStarted, "NotStarted"),
            (Error::DeclaredLate, "DeclaredLate"),
            (Error::CardinalityLimit { limit: 3 }, "CardinalityLimit"),
            (Error::Forked, "Forked"),
        ] {
            assert_eq!((refusal.name(), refusal.code()), (name, None));
            assert!(refusal.places().is_empty() && !refusal.to_string().is_empty());
        }
        let unexpected = Error::from_code(-7, 1, 2);
        assert_eq!(
            (unexpected, unexpected.code()),
            (Error::Unexpected(-7), Some(-7))
        );
        assert_eq!(
            Error::Unexpected(2).to_string(),
            format!("unexpected code 2: {}", code_text(2))
        );
    }
}
