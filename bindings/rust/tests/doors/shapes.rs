//! P1 to P10 of docs/REFERENCE.md.

use crate::support::{adds, fresh, handle, listing, pool_with, refusals, shape};
use zimatuno::{name, Batch, CursorKind, Refusal};

/// The shape after these keys were added and one, if any, removed.
fn shape_of(slots: u16, keys: &[u64], removed: Option<u64>) -> String {
    let mut pool = pool_with(slots, keys);
    if let Some(key) = removed {
        let answers = Batch::new().remove_by_key(1, key).run(&mut pool).unwrap();
        assert_eq!(answers[0].shown().map(|record| record.key), Some(key));
    }
    shape(&pool)
}

#[test]
fn p1_to_p6() {
    let three = "2(0)[1(0) 3(0)]";
    assert_eq!(shape_of(4, &[1, 2, 3], None), three);
    assert_eq!(shape_of(4, &[3, 1, 2], None), three);
    assert_eq!(shape_of(5, &[2, 1, 4, 3, 5], Some(1)), "4(2)[2(1)[- 3(0)] 5(0)]");
    assert_eq!(shape_of(4, &[2, 1, 3], Some(2)), "1(1)[- 3(0)]");
    assert_eq!(shape_of(4, &[2, 1, 3, 4], Some(2)), "3(0)[1(0) 4(0)]");
    assert_eq!(shape_of(5, &[4, 2, 5, 1, 3], Some(4)), "3(2)[2(2)[1(0) -] 5(0)]");
}

#[test]
fn p1_is_listed_as_the_reference_prints_it() {
    let lines = ["pool 4 1 3 3 4", "1 1 1 1 2 0 61", "1 2 2 2 0 0 62", "1 3 3 3 2 0 63"];
    assert_eq!(listing(&pool_with(4, &[1, 2, 3])), lines);
}

#[test]
fn p7_a_slot_is_taken_again_and_the_old_handle_is_stale() {
    let mut pool = pool_with(4, &[10, 20, 30]);
    let old = handle(2, 2);
    let mut batch = Batch::new();
    batch.remove_by_key(1, 20).add(1, 25, b"d").next(1, old).remove(1, old);
    let answers = batch.run(&mut pool).unwrap();
    assert_eq!(answers[0].handle(), Some(old));
    assert_eq!(answers[1].handle(), Some(handle(2, 4)));
    assert_eq!(refusals(&answers[2..]), [Some(Refusal::Stale); 2]);
    assert_eq!(name(&pool, 1, old), None);
    assert_eq!(name(&pool, 1, handle(2, 4)), Some(&b"d"[..]));
}

#[test]
fn p8_rollback_restores_the_records_and_not_the_shape() {
    let mut pool = pool_with(4, &[1, 2]);
    assert_eq!(shape(&pool), "1(1)[- 2(0)]");
    let mut batch = Batch::new();
    batch.mark().remove_by_key(1, 1).rollback().next(1, handle(1, 1));
    let answers = batch.run(&mut pool).unwrap();
    assert_eq!(answers[3].handle(), Some(handle(2, 2)));
    assert_eq!(shape(&pool), "2(2)[1(0) -]");
    assert_eq!(listing(&pool), ["pool 4 1 2 2 3", "1 1 1 1 2 0 61", "1 2 2 2 0 2 62"]);
    assert_eq!(name(&pool, 1, handle(1, 1)), Some(&b"a"[..]));
}

#[test]
fn p9_rollback_does_not_rewind_the_next_stamp() {
    let mut pool = fresh(4, 1, 16);
    let mut batch = adds(&[10]);
    batch.mark().remove_by_key(1, 10).add(1, 30, b"b").rollback();
    batch.add(1, 40, b"c").remove(1, handle(1, 2));
    let answers = batch.run(&mut pool).unwrap();
    assert_eq!(answers[3].handle(), Some(handle(1, 2)));
    assert_eq!(answers[5].handle(), Some(handle(2, 3)));
    assert_eq!(answers[6].refusal(), Some(Refusal::Stale));
    assert_eq!(name(&pool, 1, handle(1, 1)), Some(&b"a"[..]));
    assert_eq!(name(&pool, 1, handle(1, 2)), None);
}

#[test]
fn p10_append_out_of_order_loses_the_cursor() {
    let mut pool = fresh(4, 1, 16);
    let answers = adds(&[5]).last_entry(1).append(5, b"b").run(&mut pool).unwrap();
    assert_eq!((answers[1].refusal(), answers[1].cursor), (None, CursorKind::Last));
    let lost = (Some(Refusal::Order), CursorKind::None);
    assert_eq!((answers[2].refusal(), answers[2].cursor), lost);
}
