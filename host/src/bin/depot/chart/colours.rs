//! The rules that give colours to the parts of a plan's picture.
use crate::planned::Planned;
use depot_host::drawing::colours::{self, Palette};
use std::fmt::Write;

/// The rules for the picture of a plan on this paper.
pub fn rules(plan: &Planned, palette: &Palette) -> String {
    let Palette { paper, ink, soft, bars, late, end, .. } = palette;
    let words = colours::rules(palette);
    let mut css = format!(
        "{words}.chart .leader{{stroke:{soft};stroke-width:0.7;fill:none}}\
         .chart .join{{stroke-width:1.2;stroke-dasharray:2 2;fill:none}}\
         .chart .mark{{fill:{ink};stroke:none}}\
         .chart .arrival-mark{{fill:{paper};stroke:{ink};stroke-width:1.3}}\
         .chart .late-mark{{stroke:{1};stroke-width:2.2;fill:none}}\
         .chart .bar{{stroke-width:1.2}}\
         .chart .bar.late{{fill:{0};stroke:{1};stroke-width:2}}\
         .chart .join.late{{stroke:{1}}}\
         .chart .hatch{{stroke:{1};stroke-width:1.6;stroke-opacity:0.55}}\
         .chart .hatched{{fill:url(#late);stroke:none}}\
         .chart .late-word{{fill:{1};font-weight:bold}}\
         .chart .end{{stroke:{end};stroke-width:2.4}}\
         .chart .end-word{{fill:{end};font-weight:bold;font-size:12px}}",
        late.0, late.1
    );
    write!(css, ".chart .late.ground{{fill:{}}}", late.0).unwrap();
    for (place, (fill, edge)) in bars.iter().enumerate() {
        write!(css, ".chart .t{place}{{fill:{fill};stroke:{edge}}}.chart .join.t{place}{{fill:none}}").unwrap();
    }
    css += ".chart .ground{stroke:none}";
    if plan.has_rests() {
        write!(
            css,
            ".chart .rest{{fill:none;stroke:{soft};stroke-width:0.9;stroke-dasharray:3 2}}\
             .chart .dots{{fill:none;stroke:{soft};stroke-width:1.4;stroke-linecap:round;stroke-dasharray:0.1 4}}"
        )
        .unwrap();
    }
    css
}

/// The rules of a page around a picture on this paper.
pub fn page_rules(plan: &Planned, palette: &Palette) -> String {
    let Palette { paper, ink, soft, grid, late, .. } = palette;
    format!(
        "body{{background:{paper};color:{ink}}}th,td{{border-bottom:1px solid {grid}}}th,footer,.below,td::before{{color:{soft}}}.cards tr{{border-color:{grid}}}\
         tr.late{{background:{}}}tr.late td:last-child{{color:{}}}{}",
        late.0,
        late.1,
        rules(plan, palette)
    )
}
