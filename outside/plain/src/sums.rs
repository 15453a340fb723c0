//! What each board knows before the exchange.

use crate::element::Element;
use crate::plan::Plan;
use crate::scene::Scene;

/// The own sum of each copy's board at its vertex, over the cells that the board owns.
pub fn own_sums<E: Element>(scene: &Scene, plan: &Plan) -> Vec<E> {
    let mut sums = vec![E::ZERO; plan.copies().len()];
    for cell in &scene.cells {
        for (&vertex, &words) in cell.corners.iter().zip(&cell.contributions) {
            let sum = &mut sums[plan.number(cell.board, vertex)];
            *sum = sum.join(E::unpack(words));
        }
    }
    sums
}
