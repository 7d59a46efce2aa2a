//! The night as a page in one file: the picture, the calls, and the plan that was followed.
use super::night::Night;
use super::picture;
use super::words::{columns, ending, summary};
use crate::chart::{self, DARK, LIGHT};
use crate::page::{boxed, head, table_of, warning};
use depot_host::drawing::markup::escaped;

pub fn text(night: &Night) -> String {
    let title = escaped(&format!("{}: the night on the feeder", night.plan.title()));
    let rules = [LIGHT, DARK].map(|palette| chart::page_rules(&night.plan, &palette));
    let refused: Vec<bool> = night.events.iter().map(|event| event.answer.is_err()).collect();
    format!(
        "{}<body>\n<main>\n{}{}<section class=\"table\">\n<h2>{title}</h2>\n{}<p>{}</p>\n{}</section>\n</main>\n\
         <footer><p>{}</p><p>Every answer is the proved library's: the plan's, the desk's and the runner's.</p></footer>\n</body>\n</html>\n",
        head(&title, &rules),
        boxed(&picture::part(night)),
        boxed(&chart::part(&night.plan)),
        warning(&night.plan),
        escaped(&summary(night).join(" ")),
        table_of(&columns(night), &refused),
        escaped(&ending(night).join(" "))
    )
}
