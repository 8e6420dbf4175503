//! The reasons for which a record is not good, each with its number and its words. Printed by `scripts/refusals rust-reasons` from
//! docs/refusals.txt.

use core::fmt;

/// Why a task record is not good: the first limit that it breaks, in the documents' order. Its `Display` says it in words.
#[derive(Clone, Copy, Debug, PartialEq, Eq, Hash)]
#[non_exhaustive]
pub enum Reason {
    /// 1: C is 0.
    NoCost,
    /// 2: C + 2w is above Tmin.
    CostAboveTmin,
    /// 3: Tmin is above Tmax.
    TminAboveTmax,
    /// 4: Tmax is above 1,000,000,000.
    TmaxTooLong,
    /// 5: E is above 1,000,000.
    ElasticityTooGreat,
    /// 6: Tmin is not a multiple of q.
    TminOffNotch,
    /// 7: Tmax is not a multiple of q.
    TmaxOffNotch,
    /// 8: q is 0.
    NoNotch,
}

impl Reason {
    /// Its number, as the library tells it.
    pub fn number(self) -> u32 {
        match self {
            Reason::NoCost => 1,
            Reason::CostAboveTmin => 2,
            Reason::TminAboveTmax => 3,
            Reason::TmaxTooLong => 4,
            Reason::ElasticityTooGreat => 5,
            Reason::TminOffNotch => 6,
            Reason::TmaxOffNotch => 7,
            Reason::NoNotch => 8,
        }
    }

    /// The reason of a number; `None` where none has that number, as 0, which tells of a good record.
    pub fn of(number: u32) -> Option<Reason> {
        Some(match number {
            1 => Reason::NoCost,
            2 => Reason::CostAboveTmin,
            3 => Reason::TminAboveTmax,
            4 => Reason::TmaxTooLong,
            5 => Reason::ElasticityTooGreat,
            6 => Reason::TminOffNotch,
            7 => Reason::TmaxOffNotch,
            8 => Reason::NoNotch,
            _ => return None,
        })
    }
}

impl fmt::Display for Reason {
    fn fmt(&self, f: &mut fmt::Formatter<'_>) -> fmt::Result {
        f.write_str(match self {
            Reason::NoCost => "C is 0",
            Reason::CostAboveTmin => "C + 2w is above Tmin",
            Reason::TminAboveTmax => "Tmin is above Tmax",
            Reason::TmaxTooLong => "Tmax is above 1,000,000,000",
            Reason::ElasticityTooGreat => "E is above 1,000,000",
            Reason::TminOffNotch => "Tmin is not a multiple of q",
            Reason::TmaxOffNotch => "Tmax is not a multiple of q",
            Reason::NoNotch => "q is 0",
        })
    }
}

impl core::error::Error for Reason {}

/// Why a task that needs several cores is not good: the first limit that it breaks, in the documents' order. Its `Display` says it in words.
#[derive(Clone, Copy, Debug, PartialEq, Eq, Hash)]
#[non_exhaustive]
pub enum WideReason {
    /// 1: L is 0.
    NoSpan,
    /// 2: L is not below Tmin.
    SpanNotBelowTmin,
    /// 3: L is not below C.
    SpanNotBelowCost,
    /// 4: C is not above Tmax.
    CostNotAboveTmax,
    /// 5: C is above 16 times Tmin.
    CostTooGreat,
    /// 6: Tmin is above Tmax.
    TminAboveTmax,
    /// 7: Tmax is above 1,000,000,000.
    TmaxTooLong,
    /// 8: E is above 1,000,000.
    ElasticityTooGreat,
}

impl WideReason {
    /// Its number, as the library tells it.
    pub fn number(self) -> u32 {
        match self {
            WideReason::NoSpan => 1,
            WideReason::SpanNotBelowTmin => 2,
            WideReason::SpanNotBelowCost => 3,
            WideReason::CostNotAboveTmax => 4,
            WideReason::CostTooGreat => 5,
            WideReason::TminAboveTmax => 6,
            WideReason::TmaxTooLong => 7,
            WideReason::ElasticityTooGreat => 8,
        }
    }

    /// The reason of a number; `None` where none has that number, as 0, which tells of a good record.
    pub fn of(number: u32) -> Option<WideReason> {
        Some(match number {
            1 => WideReason::NoSpan,
            2 => WideReason::SpanNotBelowTmin,
            3 => WideReason::SpanNotBelowCost,
            4 => WideReason::CostNotAboveTmax,
            5 => WideReason::CostTooGreat,
            6 => WideReason::TminAboveTmax,
            7 => WideReason::TmaxTooLong,
            8 => WideReason::ElasticityTooGreat,
            _ => return None,
        })
    }
}

impl fmt::Display for WideReason {
    fn fmt(&self, f: &mut fmt::Formatter<'_>) -> fmt::Result {
        f.write_str(match self {
            WideReason::NoSpan => "L is 0",
            WideReason::SpanNotBelowTmin => "L is not below Tmin",
            WideReason::SpanNotBelowCost => "L is not below C",
            WideReason::CostNotAboveTmax => "C is not above Tmax",
            WideReason::CostTooGreat => "C is above 16 times Tmin",
            WideReason::TminAboveTmax => "Tmin is above Tmax",
            WideReason::TmaxTooLong => "Tmax is above 1,000,000,000",
            WideReason::ElasticityTooGreat => "E is above 1,000,000",
        })
    }
}

impl core::error::Error for WideReason {}
