//! The five calls that are timed, as all three programs take and answer them.

/// How many signals a street can have, and how long a lent list of offsets is here.
pub const MAX_SIGNALS: usize = 32;
/// How many bytes a sheet can have, and how long a lent list of bytes is here.
pub const LARGEST_SHEET: usize = 2_048;

#[repr(C)]
#[derive(Clone, Copy, Debug, Default, PartialEq)]
pub struct Plan {
    pub code: u32,
    pub place: u32,
    pub reference: u32,
    pub b: i32,
    pub outbound: u32,
    pub inbound: u32,
    pub rounded: u32,
    pub starts: u32,
    pub ends: u32,
}

#[repr(C)]
#[derive(Clone, Copy, Debug, Default, PartialEq)]
pub struct Measure {
    pub code: u32,
    pub place: u32,
    pub outbound_width: u32,
    pub outbound_start: u32,
    pub inbound_width: u32,
    pub inbound_start: u32,
}

#[repr(C)]
#[derive(Clone, Copy, Debug, Default, PartialEq)]
pub struct Sheet {
    pub code: u32,
    pub place: u32,
    pub signals: usize,
    pub cycle: u32,
    pub reds: [u32; MAX_SIGNALS],
    pub distances: [u32; MAX_SIGNALS],
    pub outbound: [u32; MAX_SIGNALS],
    pub inbound: [u32; MAX_SIGNALS],
}

#[repr(C)]
#[derive(Clone, Copy, Debug, Default, PartialEq)]
pub struct Writing {
    pub code: u32,
    pub place: u32,
    pub count: usize,
}

/// A refusal's code and place.
pub type Refusal = (u32, u32);

impl From<Refusal> for Plan {
    fn from((code, place): Refusal) -> Plan {
        Plan { code, place, ..Plan::default() }
    }
}

impl From<Refusal> for Measure {
    fn from((code, place): Refusal) -> Measure {
        Measure { code, place, ..Measure::default() }
    }
}

impl From<Refusal> for Sheet {
    fn from((code, place): Refusal) -> Sheet {
        Sheet { code, place, ..Sheet::default() }
    }
}

impl From<Refusal> for Writing {
    fn from((code, place): Refusal) -> Writing {
        Writing { code, place, ..Writing::default() }
    }
}

/// One of the three programs. Every method is one call of a function that is not inlined.
pub trait Calls {
    fn read(bytes: &[u8]) -> Sheet;

    fn equal(cycle: u32, reds: &[u32], distances: &[u32], out: &[u32], back: &[u32], offsets: &mut [u32]) -> Plan;

    /// The plan with a requested outbound width.
    fn moved(
        cycle: u32,
        reds: &[u32],
        distances: &[u32],
        out: &[u32],
        back: &[u32],
        width: u32,
        offsets: &mut [u32],
    ) -> Plan;

    fn measure(cycle: u32, reds: &[u32], distances: &[u32], out: &[u32], back: &[u32], offsets: &[u32]) -> Measure;

    /// The street's sheet, into the lent bytes.
    fn write(cycle: u32, reds: &[u32], distances: &[u32], out: &[u32], back: &[u32], bytes: &mut [u8]) -> Writing;
}

/// A program whose calls are those of the modules beside it.
macro_rules! program {
    ($name:ident) => {
        pub struct $name;

        impl Calls for $name {
            #[inline(always)]
            fn read(bytes: &[u8]) -> Sheet {
                sheet::read(bytes)
            }

            #[inline(always)]
            fn equal(
                cycle: u32,
                reds: &[u32],
                distances: &[u32],
                out: &[u32],
                back: &[u32],
                offsets: &mut [u32],
            ) -> Plan {
                plans::equal(cycle, reds, distances, out, back, offsets)
            }

            #[inline(always)]
            fn moved(
                cycle: u32,
                reds: &[u32],
                distances: &[u32],
                out: &[u32],
                back: &[u32],
                width: u32,
                offsets: &mut [u32],
            ) -> Plan {
                plans::outbound(cycle, reds, distances, out, back, width, offsets)
            }

            #[inline(always)]
            fn measure(
                cycle: u32,
                reds: &[u32],
                distances: &[u32],
                out: &[u32],
                back: &[u32],
                offsets: &[u32],
            ) -> Measure {
                bands::measure(cycle, reds, distances, out, back, offsets)
            }

            #[inline(always)]
            fn write(
                cycle: u32,
                reds: &[u32],
                distances: &[u32],
                out: &[u32],
                back: &[u32],
                bytes: &mut [u8],
            ) -> Writing {
                writer::write(cycle, reds, distances, out, back, bytes)
            }
        }
    };
}

pub(crate) use program;
