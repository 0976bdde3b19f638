//! Scripts drawn without a look at the state, apart from the number of
//! messages.

use super::maker::Maker;

const KEYS: [&str; 7] = ["61", "62", "63", "6100", "6162", "65", "ff00ff00ff00ff00"];
const VALUES: [&str; 5] = ["-", ".", "01", "0202", "000102030405060708090a0b0c0d0e0f"];

impl Maker {
    pub fn blind(&mut self, lines: usize) {
        let size = self.random.within(1, 7);
        let buckets = self.random.within(1, 8);
        self.form(size, buckets);
        for _ in 0..lines {
            let line = self.blind_line(size, buckets);
            self.add(line);
        }
    }

    fn blind_line(&mut self, size: usize, buckets: usize) -> String {
        let count = self.under_way();
        let random = &mut self.random;
        let past = usize::from(random.chance(10));
        let server = match random.chance(600) {
            true => 0,
            false => random.below(size + past),
        };
        let bucket = random.below(buckets + past);
        let place = match random.below(10) {
            0..=6 => 0,
            7 | 8 => random.below(count.max(1)),
            _ => random.below(count + 2),
        };
        let key = *random.pick(&KEYS);
        let stores = random.below(4).saturating_sub(1);
        let (expected, value) = (*random.pick(&VALUES), *random.pick(&VALUES));
        match random.below(1000) {
            0..=11 => format!("elect {server}"),
            12..=79 => format!("get {server} {key}"),
            80..=159 => format!("set {server} {key} {value}"),
            160..=209 => format!("setif {server} {key} {expected} {value}"),
            210..=229 => format!("del {server} {key}"),
            230..=249 => format!("keys {server} {bucket}"),
            250..=289 => format!("copy {place}"),
            290..=304 => format!("lose {place}"),
            305..=309 => format!("timeout {server} {bucket}"),
            310 => format!("stop {server}"),
            311..=314 => format!("deliver {place} "),
            // With nothing under way there is little to deliver.
            315..=399 if count == 0 => format!("elect {server}"),
            400..=599 if count == 0 => format!("get {server} {key}"),
            600..=899 if count == 0 => format!("set {server} {key} {value}"),
            900..=909 => format!("cut {place} {stores}"),
            910..=939 => format!("start {server}"),
            _ => format!("deliver {place}"),
        }
    }
}
