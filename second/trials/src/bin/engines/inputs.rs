//! The lists that are timed.

use second::MOST_EVENTS;
use trials::{sparse_case, steady_case, Case};

/// Whether most classes have packets waiting, or few.
#[derive(Clone, Copy, PartialEq, Eq)]
pub enum Traffic {
    Steady,
    Sparse,
}

/// One list: how many classes each row has below it, level by level, and how many events.
pub struct Input {
    pub name: String,
    fans: Vec<usize>,
    events: usize,
    traffic: Traffic,
}

impl Input {
    fn new(name: &str, fans: &[usize], events: usize, traffic: Traffic) -> Input {
        Input {
            name: name.to_string(),
            fans: fans.to_vec(),
            events,
            traffic,
        }
    }

    pub fn case(&self) -> Case {
        match self.traffic {
            Traffic::Steady => steady_case(&self.fans, self.events),
            Traffic::Sparse => sparse_case(&self.fans, self.events),
        }
    }
}

/// Which table a part is shown as.
#[derive(Clone, Copy, PartialEq, Eq)]
pub enum Shown {
    /// Times and their ratios.
    Ratios,
    /// Times, their ratios, and the time of one choice.
    Choices,
}

/// Lists that belong into one table.
pub struct Part {
    pub title: &'static str,
    pub shown: Shown,
    pub inputs: Vec<Input>,
}

pub fn parts() -> Vec<Part> {
    let part = |title, shown, inputs| Part {
        title,
        shown,
        inputs,
    };
    vec![
        part(
            "Lists of full size, most classes with packets waiting:",
            Shown::Ratios,
            shapes(Traffic::Steady),
        ),
        part(
            "Lists of full size, at most a quarter of the classes with packets:",
            Shown::Ratios,
            shapes(Traffic::Sparse),
        ),
        part(
            "By the number of classes, all right under the root, 65,536 events, most with packets waiting:",
            Shown::Choices,
            by_classes(Traffic::Steady),
        ),
        part(
            "By the number of classes, the same with at most a quarter of them with packets:",
            Shown::Choices,
            by_classes(Traffic::Sparse),
        ),
        part(
            "By the number of events, 255 classes right under the root:",
            Shown::Ratios,
            by_events(),
        ),
    ]
}

fn shapes(traffic: Traffic) -> Vec<Input> {
    let shapes: [(&str, &[usize]); 3] = [
        ("flat, 255 classes", &[255]),
        ("two levels, 15 x 16 classes", &[15, 16]),
        ("depth 8, 64 classes", &[2, 2, 2, 2, 2, 2, 1, 1]),
    ];
    shapes
        .map(|(name, fans)| Input::new(name, fans, MOST_EVENTS, traffic))
        .into()
}

fn by_classes(traffic: Traffic) -> Vec<Input> {
    let classes = [2, 4, 8, 16, 32, 64, 128, 255];
    let input = |classes: usize| {
        let name = format!("{classes} classes");
        Input::new(&name, &[classes], MOST_EVENTS, traffic)
    };
    classes.map(input).into()
}

fn by_events() -> Vec<Input> {
    let events = [1024, 2048, 4096, 8192, 16_384, 32_768, MOST_EVENTS];
    let input = |events: usize| {
        let name = format!("{},{:03} events", events / 1000, events % 1000);
        Input::new(&name, &[255], events, Traffic::Steady)
    };
    events.map(input).into()
}

#[cfg(test)]
mod tests {
    use super::*;

    #[test]
    fn every_list_is_accepted() {
        for input in parts().into_iter().flat_map(|part| part.inputs) {
            assert_eq!(input.case().answer().number, 0, "{}", input.name);
        }
    }
}
