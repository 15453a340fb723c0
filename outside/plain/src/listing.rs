//! What the programs print.

use crate::element::Element;
use crate::exchange::Run;
use crate::media::Medium;
use crate::refusal::Refusal;
use crate::scene::Scene;

/// The one line of a refusal.
pub fn refused(refusal: Refusal) -> Vec<u8> {
    format!("{refusal}\n").into_bytes()
}

/// The listing of a run that is over.
pub fn list<E: Element, M: Medium>(scene: &Scene, run: &Run<'_, E, M>) -> Vec<u8> {
    let plan = run.plan();
    let mut out = Vec::with_capacity(128 + 32 * run.copies().len());
    push_heading(&mut out, scene, run);
    for board in 0..plan.boards() {
        push_number(&mut out, board);
        match run.awaits(board) {
            None => out.extend_from_slice(b" settled\n"),
            Some(other) => {
                push_named(&mut out, " awaits ", other);
                out.push(b'\n');
            }
        }
        let part = plan.board_part(board);
        for (copy, element) in plan.copies()[part.clone()].iter().zip(&run.copies()[part]) {
            push_copy(&mut out, board, copy.vertex, *element);
        }
    }
    out
}

fn push_heading<E: Element, M: Medium>(out: &mut Vec<u8>, scene: &Scene, run: &Run<'_, E, M>) {
    push_named(out, "boards ", scene.boards);
    push_named(out, " overlap ", scene.overlap);
    push_named(out, " kind ", scene.kind.number().into());
    push_named(out, " copies ", run.plan().copies().len());
    push_named(out, " edges ", run.plan().edges().len());
    let tally = run.tally();
    push_named(out, "\nturns ", tally.turns);
    push_named(out, " puts ", tally.puts);
    push_named(out, " lost ", tally.lost);
    push_named(out, " accepted ", tally.accepted);
    out.push(b'\n');
}

fn push_copy<E: Element>(out: &mut Vec<u8>, board: usize, vertex: u16, element: E) {
    push_number(out, board);
    out.push(b' ');
    push_number(out, vertex.into());
    for word in element.pack() {
        out.push(b' ');
        push_number(out, word as usize);
    }
    out.push(b'\n');
}

fn push_named(out: &mut Vec<u8>, name: &str, number: usize) {
    out.extend_from_slice(name.as_bytes());
    push_number(out, number);
}

/// Most of a listing is numbers, and the formatting machinery takes twice as long for them.
fn push_number(out: &mut Vec<u8>, mut number: usize) {
    let mut digits = [0; 20];
    let mut start = digits.len();
    loop {
        start -= 1;
        digits[start] = b'0' + (number % 10) as u8;
        number /= 10;
        if number == 0 {
            break;
        }
    }
    out.extend_from_slice(&digits[start..]);
}

#[cfg(test)]
mod tests {
    use super::*;

    #[test]
    fn numbers_are_decimal() {
        for number in [0, 7, 10, 99, 100, 1_000_000, u32::MAX as usize, usize::MAX] {
            let mut out = Vec::new();
            push_number(&mut out, number);
            assert_eq!(out, number.to_string().into_bytes());
        }
    }
}
