//! How often each kind of month and year occurred in `forest_sample` and decided its answer.

use forest::{Month, Reading, Site, Verdict};
use Reading::{Below, Measured, Missing};

/// 65,535 eq per hectare, in µg per square metre.
const MOST_SULPHUR: i64 = 65_535 * 1600;
const MOST_NITROGEN: i64 = 65_535 * 1400;
/// The bits of the float after 1000.0.
const ABOVE_MOST: u32 = 0x447A_0001;

#[derive(Default)]
pub struct Sampled {
    /// Both site and months at fault, and the length of the months alone.
    site_first: u64,
    months_length: u64,
    /// 8, 12 and 13, by month.
    rain: [u64; 12],
    concentration: [u64; 12],
    missing: [u64; 12],
    /// These, though the months before already passed 65,535.
    after_too_much: u64,
    /// 12 and 13, by the reading that decides them.
    not_a_number: u64,
    infinite: u64,
    negative: u64,
    above_most: u64,
    bad_limit: u64,
    missing_at_0_mm: u64,
    case_above_2: u64,
    /// Two faults in one month: 8 before 12 or 13, 12 before 13, 13 before 12.
    rain_and_reading: u64,
    bad_then_missing: u64,
    missing_then_bad: u64,
    /// 14, by what alone passes 65,535.
    too_much_sulphur: u64,
    too_much_nitrogen: u64,
    /// Accepted years with such a reading or pair.
    limit: u64,
    minus_zero: u64,
    subnormal: u64,
    most: u64,
    greatest_sulphur: u64,
    greatest_nitrogen: u64,
    /// A sum that is divided without a rest, and one that leaves a rest of 1.
    whole_sulphur: u64,
    whole_nitrogen: u64,
    rest_sulphur: u64,
    rest_nitrogen: u64,
    /// Another mark than that of the pair with which the site came.
    within_for_over: u64,
    over_for_within: u64,
}

impl Sampled {
    /// A site value of a length that is permitted with a good list and its months: the result in a buffer with room, and the
    /// numbers there.
    pub fn count(
        &mut self,
        site: &Site,
        list: &[u8],
        months: &[u8],
        result: u64,
        numbers: &[u64; 10],
    ) {
        let (rule, offset) = (result >> 32, result as u32 as usize);
        let bytes = months;
        let months = forest::months_from_bytes(bytes);
        match (forest::judge(site, list), months) {
            (Err(_), Ok(months)) if forest::year(&months).is_ok() => {}
            (Err(_), _) => self.site_first += 1,
            (Ok(_), Err(_)) => self.months_length += 1,
            (Ok(own), Ok(months)) if rule == 0 => {
                self.accepted(&months, numbers);
                let (was, is) = (own.verdict == Verdict::Within, numbers[9] == 0);
                self.within_for_over += u64::from(is && !was);
                self.over_for_within += u64::from(was && !is);
            }
            (Ok(_), Ok(months)) if offset < 12 => {
                self.refused(&months, rule, offset);
                let cases = [2, 7, 12].map(|at| bytes[17 * offset + at]);
                let first = cases.into_iter().find(|&case| case > 1);
                self.case_above_2 += u64::from(rule == 13 && first > Some(2));
            }
            (Ok(_), Ok(months)) => {
                let (sulphur, nitrogen) = sums(&months);
                self.too_much_sulphur += u64::from(nitrogen <= MOST_NITROGEN);
                self.too_much_nitrogen += u64::from(sulphur <= MOST_SULPHUR);
            }
        }
    }

    fn accepted(&mut self, months: &[Month], numbers: &[u64; 10]) {
        let any = |kind: fn(f32) -> bool| {
            let mut floats = months.iter().flat_map(readings).filter_map(float);
            u64::from(floats.any(kind))
        };
        self.minus_zero += any(|x| x == 0.0 && x.is_sign_negative());
        self.subnormal += any(f32::is_subnormal);
        self.most += any(|x| x == 1000.0);
        let mut readings = months.iter().flat_map(readings);
        self.limit += u64::from(readings.any(|reading| matches!(reading, Below(_))));
        self.greatest_sulphur += u64::from(numbers[0] == 65_535);
        self.greatest_nitrogen += u64::from(numbers[1] == 65_535);
        let (sulphur, nitrogen) = sums(months);
        self.whole_sulphur += u64::from(sulphur > 0 && sulphur % 1600 == 0);
        self.whole_nitrogen += u64::from(nitrogen > 0 && nitrogen % 1400 == 0);
        self.rest_sulphur += u64::from(sulphur % 1600 == 1);
        self.rest_nitrogen += u64::from(nitrogen % 1400 == 1);
    }

    /// A refusal by 8, 12 or 13.
    fn refused(&mut self, months: &[Month], rule: u64, index: usize) {
        let (sulphur, nitrogen) = sums(&months[..index]);
        self.after_too_much += u64::from(sulphur > MOST_SULPHUR || nitrogen > MOST_NITROGEN);
        let month = &months[index];
        let at_fault = |reading: &Reading| reading.micrograms().is_err();
        let mut faults = readings(month).into_iter().filter(at_fault);
        let reading = faults.next();
        if rule == 8 {
            self.rain[index] += 1;
            self.rain_and_reading += u64::from(reading.is_some());
            return;
        }
        let Some(x) = reading.and_then(float) else {
            self.missing[index] += 1;
            self.missing_at_0_mm += u64::from(month.rain == 0);
            self.missing_then_bad += u64::from(faults.any(|fault| float(fault).is_some()));
            return;
        };
        self.bad_then_missing += u64::from(faults.any(|fault| float(fault).is_none()));
        self.concentration[index] += 1;
        self.not_a_number += u64::from(x.is_nan());
        self.infinite += u64::from(x.is_infinite());
        self.negative += u64::from(x < 0.0);
        self.above_most += u64::from(x.to_bits() == ABOVE_MOST);
        self.bad_limit += u64::from(matches!(reading, Some(Below(_))));
    }

    /// The counts by name, all of them due.
    pub fn kinds(&self) -> Vec<(String, u64)> {
        let mut kinds: Vec<(String, u64)> = [
            ("site and months", self.site_first),
            ("length of months", self.months_length),
        ]
        .map(|(name, count)| (name.to_string(), count))
        .into();
        for (name, counts) in [
            ("rain, month", &self.rain),
            ("concentration, month", &self.concentration),
            ("missing, month", &self.missing),
        ] {
            let named = (0..).map(|month| format!("{name} {month}"));
            kinds.extend(named.zip(counts.iter().copied()));
        }
        kinds.extend(
            [
                ("fault after too much", self.after_too_much),
                ("not a number", self.not_a_number),
                ("infinite", self.infinite),
                ("negative", self.negative),
                ("next above 1000", self.above_most),
                ("bad limit", self.bad_limit),
                ("missing at 0 mm", self.missing_at_0_mm),
                ("case above 2", self.case_above_2),
                ("rain and reading", self.rain_and_reading),
                ("12 before 13", self.bad_then_missing),
                ("13 before 12", self.missing_then_bad),
                ("14 by sulphur alone", self.too_much_sulphur),
                ("14 by nitrogen alone", self.too_much_nitrogen),
                ("below a limit", self.limit),
                ("minus zero", self.minus_zero),
                ("subnormal", self.subnormal),
                ("1000", self.most),
                ("sulphur 65535", self.greatest_sulphur),
                ("nitrogen 65535", self.greatest_nitrogen),
                ("sulphur, no rest", self.whole_sulphur),
                ("nitrogen, no rest", self.whole_nitrogen),
                ("sulphur, rest of 1", self.rest_sulphur),
                ("nitrogen, rest of 1", self.rest_nitrogen),
                ("within, own pair over", self.within_for_over),
                ("over, own pair within", self.over_for_within),
            ]
            .map(|(name, count)| (name.to_string(), count)),
        );
        kinds
    }
}

fn readings(month: &Month) -> [Reading; 3] {
    [month.sulphate, month.nitrate, month.ammonium]
}

fn float(reading: Reading) -> Option<f32> {
    match reading {
        Measured(x) | Below(x) => Some(x),
        Missing => None,
    }
}

/// Sulphur and nitrogen of months that pass, in µg per square metre.
fn sums(months: &[Month]) -> (i64, i64) {
    let of = |month: &Month, reading: Reading| {
        i64::from(month.rain) * reading.micrograms().expect("a concentration")
    };
    let sulphur = months.iter().map(|month| of(month, month.sulphate));
    let nitrogen = months
        .iter()
        .map(|month| of(month, month.nitrate) + of(month, month.ammonium));
    (sulphur.sum(), nitrogen.sum())
}
