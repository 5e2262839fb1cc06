//! The curves of a comparison: the median and the worst of some ways against
//! the number of credentials.

use reference::Number;

use super::tables::{figures, Figures};
use super::{Comparison, Way};
use crate::plot::{Curve, Plot};

/// The plot of a comparison, as SVG.
pub fn drawn(comparison: &Comparison) -> String {
    plot(comparison).svg()
}

/// The plot of a comparison. The reference has no curve: it is there to be
/// compared with, and six curves are enough.
fn plot(comparison: &Comparison) -> Plot {
    let names = comparison.names.iter().enumerate();
    let names = names.filter(|(_, name)| **name != Way::Reference.name());
    let curves = names.enumerate().flat_map(|(look, (way, name))| {
        let median = curve(comparison, way, |figures| figures.median);
        let worst = curve(comparison, way, |figures| figures.worst);
        [(median, "median", false), (worst, "worst", true)].map(|(points, what, dashed)| Curve {
            name: format!("{name}, {what}"),
            points,
            look,
            dashed,
        })
    });
    Plot {
        title: "Time of one list of minimal sets".into(),
        across: "credentials in the wallet".into(),
        limit: comparison.limit.as_nanos() as f64,
        curves: curves.collect(),
    }
}

/// One of the figures of a way, for each size.
fn curve(
    comparison: &Comparison,
    way: usize,
    figure: impl Fn(&Figures) -> Option<f64>,
) -> Vec<(Number, Option<f64>)> {
    let groups = comparison.groups.iter();
    let points = groups.map(|group| (group.size, figure(&figures(&group.of_way(way)))));
    points.collect()
}

#[cfg(test)]
mod tests {
    use super::plot;
    use crate::peers::{Comparison, Group};
    use reference::Number;
    use std::time::Duration;

    #[test]
    fn every_way_but_the_reference_has_two_curves() {
        // Three wallets: each way takes its number times the size, then three
        // times as long, then too long.
        let times = |factor: Option<Number>, size: Number| {
            let time = |way: Number| factor.map(|factor| f64::from(factor * way * size));
            (1..=3).map(time).collect()
        };
        let group = |size: Number| Group {
            size,
            times: [Some(1), Some(3), None]
                .map(|factor| times(factor, size))
                .to_vec(),
            sets: vec![1; 3],
        };
        let comparison = Comparison {
            limit: Duration::from_secs(1),
            names: vec!["library", "reference", "proof enumeration"],
            groups: vec![group(2), group(4)],
            families: Vec::new(),
            idle: None,
            faults: 0,
        };
        let curves = plot(&comparison).curves;
        let told = curves
            .iter()
            .map(|curve| (curve.name.as_str(), curve.points.clone()));
        let expected = [
            ("library, median", vec![(2, Some(6.0)), (4, Some(12.0))]),
            ("library, worst", vec![(2, None), (4, None)]),
            (
                "proof enumeration, median",
                vec![(2, Some(18.0)), (4, Some(36.0))],
            ),
            ("proof enumeration, worst", vec![(2, None), (4, None)]),
        ];
        assert!(told.eq(expected));
    }
}
