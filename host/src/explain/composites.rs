//! What is told of composite objects by the objects that name them (70).

use canopyrail::Break;

use super::{counted, Page};
use crate::delivery::Delivery;
use crate::layout::{OB_LIN, OB_PUN, OB_TEX};
use crate::picture::shown;

pub fn idle_composite(page: &mut Page, delivery: &Delivery, b: &Break) {
    if let Some(composite) = delivery.values(b.file, b.record) {
        let code = shown(composite.text(2).unwrap_or(&[]));
        let name = match composite.text(3) {
            Some(_) => format!("the name {}", composite.words(3)),
            None => "no name".to_string(),
        };
        let [points, texts, linears] = [OB_PUN, OB_TEX, OB_LIN].map(|file| counted(delivery, file));
        let text = format!(
            "Composite {} has the code {code} and {name}. {points}, {texts} and {linears} do not \
             name it in field 2 ID_OCOMP.",
            composite.words(1)
        );
        page.say("Here", &text);
    }
}
