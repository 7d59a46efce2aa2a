//! The colours, and the rules that give them to words and to the paper.

/// Colours for a kind of paper.
pub struct Palette {
    pub paper: &'static str,
    pub ink: &'static str,
    pub soft: &'static str,
    pub grid: &'static str,
    /// Fill and edge of bars that lie beside each other.
    pub bars: [(&'static str, &'static str); TINTS],
    pub late: (&'static str, &'static str),
    pub end: &'static str,
}

/// How many tints tell neighbours apart.
pub const TINTS: usize = 4;

pub const LIGHT: Palette = Palette {
    paper: "#ffffff",
    ink: "#16202c",
    soft: "#4d5a69",
    grid: "#d5dbe3",
    bars: [("#cfe2f6", "#2a5f96"), ("#d3ecdc", "#2c7148"), ("#e2dcf5", "#5c4a9e"), ("#d2ebee", "#1f6d78")],
    late: ("#fde3c4", "#a1430a"),
    end: "#16202c",
};

pub const DARK: Palette = Palette {
    paper: "#12181f",
    ink: "#eef2f6",
    soft: "#aab6c3",
    grid: "#303b47",
    bars: [("#1f4166", "#8cc0f2"), ("#1d4a31", "#86d3a5"), ("#3a2f66", "#b9a9f3"), ("#164650", "#7fd0dc")],
    late: ("#5a3111", "#ffb26b"),
    end: "#eef2f6",
};

/// The rules for the words and the paper of a picture.
pub fn rules(palette: &Palette) -> String {
    let Palette { paper, ink, soft, grid, .. } = palette;
    format!(
        ".chart text{{font-family:\"Liberation Sans\",Arial,Helvetica,\"DejaVu Sans\",sans-serif;font-size:11px;fill:{ink}}}\
         .chart .paper{{fill:{paper}}}\
         .chart .title{{font-size:19px;font-weight:bold}}\
         .chart .lead{{font-size:13px}}\
         .chart .strong{{font-weight:bold}}\
         .chart .soft{{fill:{soft}}}\
         .chart .small{{font-size:10px}}\
         .chart .grid{{stroke:{grid};stroke-width:1;fill:none}}"
    )
}
