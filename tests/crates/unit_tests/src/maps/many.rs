//! Many rooms at once, between which ways lead in no order: no two are drawn in one place.
use room_map::{RoomWay, are_apart, laid_out};
use std::alloc::{AllocError, Global};
use std::test::Fail;
use world_meaning::Direction;

/// The next of numbers in no order.
fn next(number: u64) -> u64 {
    number
        .wrapping_mul(6_364_136_223_846_793_005)
        .wrapping_add(1_442_695_040_888_963_407)
}

/// Ways in no order between so many rooms.
fn ways_among(alloc: Global, rooms: u64, count: u64) -> Result<Vec<RoomWay>, AllocError> {
    let mut ways = Vec::new(alloc);
    let mut number = rooms;
    for _ in 0..count {
        number = next(number);
        let from = (number >> 33) % rooms;
        number = next(number);
        let to = (number >> 33) % rooms;
        number = next(number);
        let place = (number >> 33) % 12;
        if let Some(direction) = Direction::ALL.get(place as usize) {
            ways.push(RoomWay {
                from: from as usize,
                direction: *direction,
                to: to as usize,
            })?;
        }
    }
    Ok(ways)
}

#[test]
fn rooms_in_no_order_are_apart(rt: HostRuntime) -> Result<(), Fail> {
    let alloc = rt.alloc();
    for rooms in [2u16, 5, 12, 40, 150] {
        for more in 0..4u64 {
            let count = u64::from(rooms) * more;
            let ways = ways_among(alloc, u64::from(rooms), count)?;
            let spots = laid_out(alloc, rooms, 0, ways.as_slice())?;
            assert!(rt; spots.len() == usize::from(rooms));
            assert!(rt; are_apart(spots.as_slice()));
        }
    }
    Ok(())
}

#[test]
fn no_layout_needs_the_row_that_is_kept_ready(rt: HostRuntime) -> Result<(), Fail> {
    let alloc = rt.alloc();
    for rooms in [20u16, 60, 150] {
        let ways = ways_among(alloc, u64::from(rooms), u64::from(rooms) * 2)?;
        let spots = laid_out(alloc, rooms, 0, ways.as_slice())?;
        assert!(rt; spots.iter().any(|spot| spot.row != 0));
    }
    Ok(())
}
