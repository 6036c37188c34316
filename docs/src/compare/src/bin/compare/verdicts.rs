//! How often each region and each mark occurred.

/// By whom a site is judged.
pub const JUDGE: usize = 0;
pub const LINES: usize = 1;
pub const PAGE_LINES: usize = 2;
pub const SAMPLE: usize = 3;

/// By judge, by lines of listings, by lines of pages and by sample.
type ByWhom = [u64; 4];

#[derive(Default)]
pub struct Verdicts {
    regions: [ByWhom; 5],
    within: ByWhom,
    over: ByWhom,
    over_by_nutrient_alone: ByWhom,
}

impl Verdicts {
    pub fn count(&mut self, by: usize, region: usize, over: bool) {
        self.regions[region][by] += 1;
        if over {
            self.over[by] += 1;
            self.over_by_nutrient_alone[by] += u64::from(region == 0);
        } else {
            self.within[by] += 1;
        }
    }

    pub fn rows(&self) -> Vec<(String, ByWhom)> {
        let names = (0..).map(|region| format!("region {region}"));
        let mut rows: Vec<_> = names.zip(self.regions).collect();
        rows.extend(
            [
                ("within", self.within),
                ("over", self.over),
                ("nutrient alone", self.over_by_nutrient_alone),
            ]
            .map(|(name, counts)| (name.to_string(), counts)),
        );
        rows
    }
}
