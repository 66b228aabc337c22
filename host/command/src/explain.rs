//! `gate explain`: verdicts in words, in English or French.

mod calls;
mod depths;
mod fault;
mod header;
mod jumps;
mod lang;
mod limit_rules;
mod needs;
mod page;
mod paths;
mod reading;
mod stores;
mod turns;
mod words;

use crate::args::{with_value, Opt, Words};
use crate::code::Code;
use crate::limits::{limits, limits_refused};
use crate::trouble::Trouble;
use crate::{images, Command, Outcome};
use fault::Fault;
use gate_host::{check, turn, Limits, Refusal, Refused, MARKS_ENOUGH};
pub use lang::Lang;
use page::Page;
use std::io::Write;
pub use turns::line as turn_line;

pub const COMMAND: Command = Command { name: "explain", help: include_str!("help/explain.txt"), options: OPTIONS, run };

const OPTIONS: &[Opt] = &[with_value("--grant"), with_value("--stack"), with_value("--grant2"), with_value("--lang")];

fn run(words: &Words, out: &mut dyn Write) -> Result<Outcome, Trouble> {
    let limits = limits(words)?;
    let lang = Lang::of(words)?;
    if limits_refused(&limits) {
        out.write_all(of_limits(lang, &limits).as_bytes())?;
        return Ok(Outcome::Refused);
    }
    images::each(words, out, |name, image, out| {
        let (outcome, text) = of_image(lang, name, image, &limits);
        out.write_all(text.as_bytes())?;
        Ok(outcome)
    })
}

/// What is wrong with limits that are refused, whatever the image.
pub fn of_limits(lang: Lang, limits: &Limits) -> String {
    let mut page = Page::new(lang);
    let number = Refusal::Limits.number();
    page.title(&words::limits_refused(lang, number, &words::cause(lang, number)));
    page.whys(&limit_rules::broken(lang, limits));
    page.advise(&words::mend_limits(lang));
    page.text
}

/// The verdict on an image under limits that are not refused.
fn of_image(lang: Lang, name: &str, image: &[u8], limits: &Limits) -> (Outcome, String) {
    let mut page = Page::new(lang);
    let mut marks = [0; MARKS_ENOUGH];
    let verdict = check(image, limits, &mut marks).and_then(|accepted| Ok((accepted, turn(image, limits, &mut marks)?)));
    match verdict {
        Ok((accepted, turn)) => {
            page.title(&words::accepted(lang, name));
            if let Ok(code) = Code::read(image) {
                calls::accepted(&mut page, &code, limits, accepted, turn);
            }
            (Outcome::Good, page.text)
        }
        Err(refused) => {
            let number = refused.refusal.number();
            page.title(&words::refused(lang, name, number, &words::cause(lang, number)));
            match Code::read(image) {
                Ok(code) => of_code(&mut page, &code, limits, refused),
                Err(refusal) => of_header(&mut page, image, refusal),
            }
            (Outcome::Refused, page.text)
        }
    }
}

fn of_header(page: &mut Page, image: &[u8], refusal: Refusal) {
    let lang = page.lang;
    let (sentences, to_do) = match refusal {
        Refusal::NotSlu => (header::not_slu(lang, image), words::give_an_image(lang)),
        Refusal::UnknownVersion => (header::unknown_version(lang, image), words::mend_version(lang)),
        _ => (header::layout(lang, image), words::mend_layout(lang)),
    };
    page.whys(&sentences);
    page.advise(&to_do);
}

fn of_code(page: &mut Page, code: &Code, limits: &Limits, refused: Refused) {
    let offset = usize::from(refused.offset);
    if refused.refusal == Refusal::Stack {
        return calls::stack(page, code, limits);
    }
    let Some(fault) = Fault::at(code, offset) else { return };
    fault.place(page);
    if refused.refusal != Refusal::DepthsDisagree {
        fault.instruction(page);
    }
    match refused.refusal {
        Refusal::Unreached => depths::unreached(page, &fault),
        Refusal::DepthsDisagree => depths::disagree(page, &fault),
        Refusal::Outside => reading::outside(page, &fault),
        Refusal::Truncated => reading::truncated(page, &fault),
        Refusal::IntoInstruction | Refusal::Jump => jumps::explain(page, &fault),
        Refusal::DepthRange => depths::depth_range(page, &fault),
        Refusal::Store => stores::explain(page, &fault, limits),
        Refusal::Call => calls::explain(page, &fault),
        Refusal::FallsOff => reading::falls_off(page, &fault),
        _ => {}
    }
}

fn hex(bytes: &[u8]) -> String {
    bytes.iter().map(|byte| format!("{byte:02X}")).collect::<Vec<_>>().join(" ")
}

#[cfg(test)]
mod tests;
