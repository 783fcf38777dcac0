//! `draw`, and the pictures of `judge`.

use crate::call::{Call, Wrong};
use crate::{files, Done};
use desk::answer::sentence::Told;
use desk::model::{House, Plan};
use desk::picture::{svg, terminal, Picture};
use desk::scene::Scene;
use desk::text::Text;
use desk::{decode, words};

/// Writes the SVG that the call asks for; gives what it prints.
pub fn picture(
    call: &Call,
    plan: &Plan,
    house: Option<&House>,
    title: String,
    told: &Told,
) -> Result<String, Wrong> {
    let scene = Scene::new(plan);
    let none = House::default();
    let house = house.unwrap_or(&none);
    let picture = Picture { house, scene: &scene, title, told, from: call.from, to: call.to };
    let mut says = String::new();
    if call.text || call.svg.is_none() {
        says += &format!("\n{}", terminal(&picture));
    }
    if let Some(file) = &call.svg {
        files::write(file, svg(&picture).as_bytes())?;
    }
    Ok(says)
}

pub fn draw(call: &Call) -> Result<Done, Wrong> {
    let [path] = call.exactly("draw")?;
    let given = files::house(call.house.as_deref())?;
    let (plan, house) = match files::is_words(path) {
        true => {
            let words = words::from_bytes(&files::bytes(path)?);
            let plan = words.and_then(|words| decode::plan(&words));
            let none = || Wrong(format!("{path}: the words of this plan aren't in order"));
            (plan.ok_or_else(none)?, given)
        }
        false => match files::text(path, given.as_ref())? {
            Text::Plan(plan, house) => (plan, house),
            _ => return Err(Wrong(format!("{path} is no plan"))),
        },
    };
    let says = picture(call, &plan, house.as_ref(), String::new(), &Told::default())?;
    Ok(Done::new(says.trim_start_matches('\n').to_string()))
}
