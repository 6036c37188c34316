//! The ten calls of `docs/forest.h`, by the static library and by the independent implementation.

use forest::{Judgement, Refusal, Sampled, Site, Verdict};

/// A call: its inputs, the second of them the species list, a lent buffer of elements `T`, the result.
pub struct Call<T, const INPUTS: usize = 2> {
    pub name: &'static str,
    pub library: fn([&[u8]; INPUTS], &mut [T]) -> u64,
    pub reference: fn([&[u8]; INPUTS], &mut [T]) -> u64,
}

pub const LIST: Call<u8> = Call {
    name: "forest_list",
    library: |[file, list], out| unsafe {
        c::forest_list(
            file.as_ptr(),
            file.len(),
            list.as_ptr(),
            list.len(),
            out.as_mut_ptr(),
            out.len(),
        )
    },
    reference: |[file, list], out| result(forest::list(file, list, out)),
};

pub const PAGES: Call<u8> = Call {
    name: "forest_pages",
    library: |[file, list], out| unsafe {
        c::forest_pages(
            file.as_ptr(),
            file.len(),
            list.as_ptr(),
            list.len(),
            out.as_mut_ptr(),
            out.len(),
        )
    },
    reference: |[file, list], out| result(forest::pages(file, list, out)),
};

pub const REPORT: Call<u8> = Call {
    name: "forest_report",
    library: |[file, list], out| unsafe {
        c::forest_report(
            file.as_ptr(),
            file.len(),
            list.as_ptr(),
            list.len(),
            out.as_mut_ptr(),
            out.len(),
        )
    },
    reference: |[file, list], out| result(forest::report(file, list, out)),
};

pub const REWRITE: Call<u8> = Call {
    name: "forest_rewrite",
    library: |[record, list], out| unsafe {
        c::forest_rewrite(
            record.as_ptr(),
            record.len(),
            list.as_ptr(),
            list.len(),
            out.as_mut_ptr(),
            out.len(),
        )
    },
    reference: |[record, list], out| result(forest::rewrite(record, list, out)),
};

/// A file with its list, and the byte of the target.
pub const CONVERT: Call<u8, 3> = Call {
    name: "forest_convert",
    library: |[file, list, target], out| unsafe {
        c::forest_convert(
            file.as_ptr(),
            file.len(),
            list.as_ptr(),
            list.len(),
            target[0],
            out.as_mut_ptr(),
            out.len(),
        )
    },
    reference: |[file, list, target], out| result(forest::convert(file, list, target[0], out)),
};

/// The check takes no buffer.
pub const CHECK: Call<u64> = Call {
    name: "forest_check",
    library: |[site, list], _| unsafe {
        c::forest_check(site.as_ptr(), site.len(), list.as_ptr(), list.len())
    },
    reference: |[site, list], _| {
        let checked = site_in(site, list).and_then(|site| forest::check(&site, list));
        result(checked.map(|()| 0))
    },
};

pub const LOADS: Call<u64> = Call {
    name: "forest_loads",
    library: |[site, list], out| unsafe {
        c::forest_loads(
            site.as_ptr(),
            site.len(),
            list.as_ptr(),
            list.len(),
            out.as_mut_ptr(),
            out.len(),
        )
    },
    reference: |[site, list], out| match site_in(site, list)
        .and_then(|site| forest::loads(&site, list))
    {
        Ok(loads) => enter(&[loads.max_s, loads.min_n, loads.max_n, loads.nut_n], out),
        Err(refusal) => refused(refusal),
    },
};

pub const LEVEL: Call<u64> = Call {
    name: "forest_level",
    library: |[site, list], out| unsafe {
        c::forest_level(
            site.as_ptr(),
            site.len(),
            list.as_ptr(),
            list.len(),
            out.as_mut_ptr(),
            out.len(),
        )
    },
    reference: |[site, list], out| match site_in(site, list)
        .and_then(|site| forest::level(&site, list))
    {
        Ok(found) => enter(&[found.level, found.compared], out),
        Err(refusal) => refused(refusal),
    },
};

pub const JUDGE: Call<u64> = Call {
    name: "forest_judge",
    library: |[site, list], out| unsafe {
        c::forest_judge(
            site.as_ptr(),
            site.len(),
            list.as_ptr(),
            list.len(),
            out.as_mut_ptr(),
            out.len(),
        )
    },
    reference: |[site, list], out| match site_in(site, list)
        .and_then(|site| forest::judge(&site, list))
    {
        Ok(judgement) => enter(&judged(&judgement), out),
        Err(refusal) => refused(refusal),
    },
};

/// A site value with its list, and the twelve months of the rain sampler.
pub const SAMPLE: Call<u64, 3> = Call {
    name: "forest_sample",
    library: |[site, list, months], out| unsafe {
        c::forest_sample(
            site.as_ptr(),
            site.len(),
            list.as_ptr(),
            list.len(),
            months.as_ptr(),
            months.len(),
            out.as_mut_ptr(),
            out.len(),
        )
    },
    reference: |[site, list, months], out| match sample(site, list, months) {
        Ok(sampled) => {
            let pair = [sampled.sulphur, sampled.nitrogen].map(i64::from);
            enter(&[&pair[..], &judged(&sampled.judgement)].concat(), out)
        }
        Err(refusal) => refused(refusal),
    },
};

/// The list's check comes before the length of a site value.
fn site_in(site: &[u8], list: &[u8]) -> Result<Site, Refusal> {
    forest::check_list(list)?;
    Site::from_bytes(site)
}

/// The site's checks come before the length of the months.
fn sample(site: &[u8], list: &[u8], months: &[u8]) -> Result<Sampled, Refusal> {
    let site = site_in(site, list)?;
    forest::check(&site, list)?;
    forest::sample(&site, list, &forest::months_from_bytes(months)?)
}

/// The eight numbers of a judgement.
fn judged(judgement: &Judgement) -> Vec<i64> {
    let mark = i64::from(judgement.verdict != Verdict::Within);
    [&judgement.numbers()[..], &[mark]].concat()
}

mod c {
    extern "C" {
        pub fn forest_list(
            file: *const u8,
            file_len: usize,
            list: *const u8,
            list_len: usize,
            out: *mut u8,
            out_len: usize,
        ) -> u64;
        pub fn forest_pages(
            file: *const u8,
            file_len: usize,
            list: *const u8,
            list_len: usize,
            out: *mut u8,
            out_len: usize,
        ) -> u64;
        pub fn forest_report(
            file: *const u8,
            file_len: usize,
            list: *const u8,
            list_len: usize,
            out: *mut u8,
            out_len: usize,
        ) -> u64;
        pub fn forest_rewrite(
            record: *const u8,
            record_len: usize,
            list: *const u8,
            list_len: usize,
            out: *mut u8,
            out_len: usize,
        ) -> u64;
        pub fn forest_convert(
            file: *const u8,
            file_len: usize,
            list: *const u8,
            list_len: usize,
            target: u8,
            out: *mut u8,
            out_len: usize,
        ) -> u64;
        pub fn forest_check(
            site: *const u8,
            site_len: usize,
            list: *const u8,
            list_len: usize,
        ) -> u64;
        pub fn forest_loads(
            site: *const u8,
            site_len: usize,
            list: *const u8,
            list_len: usize,
            out: *mut u64,
            out_len: usize,
        ) -> u64;
        pub fn forest_level(
            site: *const u8,
            site_len: usize,
            list: *const u8,
            list_len: usize,
            out: *mut u64,
            out_len: usize,
        ) -> u64;
        pub fn forest_judge(
            site: *const u8,
            site_len: usize,
            list: *const u8,
            list_len: usize,
            out: *mut u64,
            out_len: usize,
        ) -> u64;
        pub fn forest_sample(
            site: *const u8,
            site_len: usize,
            list: *const u8,
            list_len: usize,
            months: *const u8,
            months_len: usize,
            out: *mut u64,
            out_len: usize,
        ) -> u64;
    }
}

const SHORT_BUFFER: u64 = 11 << 32;

fn refused(refusal: Refusal) -> u64 {
    ((refusal.rule as u64) << 32) + refusal.offset as u64
}

fn result(outcome: Result<usize, Refusal>) -> u64 {
    outcome.map_or_else(refused, |count| count as u64)
}

fn enter(numbers: &[i64], out: &mut [u64]) -> u64 {
    let Some(place) = out.get_mut(..numbers.len()) else {
        return SHORT_BUFFER;
    };
    for (to, &number) in place.iter_mut().zip(numbers) {
        *to = number as u64;
    }
    numbers.len() as u64
}
