//! What was set as a goal, and whether a ratio meets it.

pub enum Limit {
    AtLeast(f64),
    AtMost(f64),
}

pub struct Aim {
    pub name: &'static str,
    pub limit: Limit,
}

impl Aim {
    pub fn is_met(&self, ratio: f64) -> bool {
        match self.limit {
            Limit::AtLeast(least) => ratio >= least,
            Limit::AtMost(most) => ratio <= most,
        }
    }

    /// A cell of a table.
    pub fn said(&self, ratio: f64) -> &'static str {
        match self.is_met(ratio) {
            true => "met",
            false => "MISSED",
        }
    }

    /// Over all groups, given the ratios of these.
    pub fn print(&self, ratios: &[f64]) {
        let met = ratios.iter().filter(|ratio| self.is_met(**ratio)).count();
        let limit = match self.limit {
            Limit::AtLeast(least) => format!("at least {least}"),
            Limit::AtMost(most) => format!("at most {most}"),
        };
        let groups = ratios.len();
        println!("{} {limit}: met in {met} of {groups} groups", self.name);
    }
}

#[cfg(test)]
mod tests {
    use super::*;

    #[test]
    fn a_limit_itself_is_met() {
        let least = Aim {
            name: "Rust/fast",
            limit: Limit::AtLeast(300.0),
        };
        assert_eq!(least.said(300.0), "met");
        assert_eq!(least.said(299.9), "MISSED");
        let most = Aim {
            name: "fast/maps",
            limit: Limit::AtMost(10.0),
        };
        assert_eq!(most.said(10.0), "met");
        assert_eq!(most.said(10.1), "MISSED");
    }
}
