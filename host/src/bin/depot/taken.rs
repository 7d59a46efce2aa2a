//! A plan that was taken before its search was over, and what is said of it.
use crate::clock::how_long;
use crate::planned::Planned;

/// What was not settled.
#[derive(Clone, Copy, Debug, PartialEq, Eq)]
pub enum Left {
    /// Whether a plan ends earlier; none ends before this minute.
    Earliest(u16),
    /// Whether another plan that ends alike suits the yard better.
    Departures,
    /// Only the slack.
    Slack,
}

#[derive(Clone, Debug, PartialEq, Eq)]
pub struct Taken {
    pub left: Left,
    /// How long it was searched, in words.
    pub after: String,
}

impl Planned {
    /// The minute before which no plan ends, where it is not shown that this is the plan that planning gives.
    pub fn bound(&self) -> Option<u16> {
        match self.taken.as_ref()?.left {
            Left::Earliest(bound) => Some(bound),
            Left::Departures | Left::Slack => None,
        }
    }

    /// What is to be known before anything else of the plan.
    pub fn warning(&self) -> Option<String> {
        let Taken { left, after } = self.taken.as_ref()?;
        let end = self.end;
        Some(match *left {
            Left::Earliest(bound) if bound < end => format!(
                "NOT SHOWN TO BE THE EARLIEST: after {after} of searching the best plan ends at {}; no plan ends before {}, so at most {} \
                 can be gained.",
                self.in_short(end),
                self.in_short(bound),
                how_long((end - bound).into())
            ),
            Left::Earliest(_) => format!(
                "ENDS AS EARLY AS ANY PLAN, but the search was stopped after {after}: of the plans that end alike another may be the one \
                 that planning gives."
            ),
            Left::Departures => format!(
                "ENDS AS EARLY AS ANY PLAN, but the search was stopped after {after}: it is not settled whether another that ends alike \
                 {}.",
                if self.late().next().is_some() { "has fewer late minutes" } else { "plugs some bus in earlier" }
            ),
            Left::Slack => format!("The search was stopped after {after}: the plan is settled, the slack of its buses is not."),
        })
    }

    /// The same in a few words, behind a title.
    pub fn mark(&self) -> Option<String> {
        let bound = self.bound()?;
        Some(match bound < self.end {
            true => format!("not shown to be the earliest, none ends before {}", self.in_short(bound)),
            false => "ends as early as any, the order is not settled".into(),
        })
    }
}

#[cfg(test)]
mod tests {
    use super::*;
    use crate::clock::Clock;
    use crate::planned::Yard;
    use crate::search::Found;
    use crate::{heading::Heading, plan_json, plan_text};
    use depot_host::on_time::{OnTime, Plan};
    use depot_host::order::Order;
    use depot_host::{card_length, plan, read, Job, Reading};

    /// A plan of one bus, full at 23:20 and off at 23:00, of which something was left open.
    fn taken(left: Left, on_time: Option<OnTime>) -> Planned {
        let bus = Job { label_len: 1, modules: 1, minutes: 140, departure: 120, ..Job::default() };
        let sheet = Order::as_listed(1).sheet(b"A", &Reading { jobs: vec![bus], modules: 1, changeover: 0 });
        let mut bytes = vec![0; card_length(1)];
        plan(&sheet, &mut bytes, &mut []).expect("a plan");
        let Plan { order, bytes, card, .. } = Plan::as_listed(&sheet, bytes);
        let (reading, after) = (read(&sheet).expect("a sheet"), "10 s".into());
        let taken = Some(Taken { left, after });
        let yard = Yard { name: "n.csv".into(), sheet: sheet.clone(), clock: Clock::starting("21:00"), lines: vec![1] };
        let found = Found { sheet, bytes, order, reading, card, slacks: None, on_time, on_time_asked: false, taken };
        Planned::new(&yard, found, &Heading::default())
    }

    #[test]
    fn what_is_said_of_each() {
        let said = |left| {
            let plan = taken(left, Some(OnTime::NotBefore(140)));
            let json = plan_json::text(&plan);
            let exact = json.split("\"end_time\": \"23:20\", ").nth(1).and_then(|rest| rest.split(", \"cabinet\"").next());
            (plan.warning().unwrap(), plan.mark(), exact.unwrap().to_string(), plan.none_earlier())
        };
        let none_earlier = "No valid plan of this sheet ends earlier.";
        let open = said(Left::Earliest(128));
        assert_eq!(
            open.0,
            "NOT SHOWN TO BE THE EARLIEST: after 10 s of searching the best plan ends at 23:20; no plan ends before 23:08, so at most \
             12 min can be gained."
        );
        assert_eq!(open.1.as_deref(), Some("not shown to be the earliest, none ends before 23:08"));
        assert_eq!(open.2, "\"exact\": false, \"bound\": 128, \"bound_time\": \"23:08\"");
        assert_eq!(open.3, "The plan is valid. No valid plan of this sheet ends before 23:08.");
        let alike = said(Left::Earliest(140));
        assert!(alike.0.ends_with("of the plans that end alike another may be the one that planning gives."), "{}", alike.0);
        assert_eq!(
            (alike.2.as_str(), alike.3.as_str()),
            ("\"exact\": false, \"bound\": 140, \"bound_time\": \"23:20\"", none_earlier)
        );
        let late = said(Left::Departures);
        assert!(late.0.ends_with("it is not settled whether another that ends alike has fewer late minutes."), "{}", late.0);
        assert_eq!((late.1, late.2.as_str(), late.3.as_str()), (None, "\"exact\": true", none_earlier));
        let slack = said(Left::Slack);
        assert_eq!((slack.1, slack.2.as_str(), slack.3.as_str()), (None, "\"exact\": true", none_earlier));
    }

    #[test]
    fn nothing_is_said_of_late_buses_that_needs_the_earliest_end() {
        let notes = |left, on_time| plan_text::notes(&taken(left, on_time)).join(" ");
        let always = "A is late in every plan: it cannot be full before 23:20.";
        assert_eq!(notes(Left::Earliest(128), None), always);
        assert_eq!(notes(Left::Departures, Some(OnTime::NotBefore(140))), always);
    }
}
