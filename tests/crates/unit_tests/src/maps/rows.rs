//! Maps of a few rooms, whose places are told by hand: the column and the row of each.
use room_map::{RoomWay, Spot, laid_out, reached_from};
use std::alloc::Global;
use std::test::Fail;
use world_meaning::Direction;
use world_meaning::Direction::{Down, East, Inside, North, Outside, South, Southwest, Up, West};

fn way(from: usize, direction: Direction, to: usize) -> RoomWay {
    RoomWay {
        from,
        direction,
        to,
    }
}

/// Whether so many rooms, which begin in the first, are drawn at these places.
fn are_at(
    alloc: Global,
    rooms: u16,
    ways: &[RoomWay],
    places: &[(u32, u32)],
) -> Result<bool, Fail> {
    let spots = laid_out(alloc, rooms, 0, ways)?;
    let mut same = spots.len() == places.len();
    for (spot, place) in spots.iter().zip(places.iter()) {
        let Spot { column, row } = *spot;
        same = same && column == place.0 && row == place.1;
    }
    Ok(same)
}

#[test]
fn a_room_north_of_another_stands_above_it(rt: HostRuntime) -> Result<(), Fail> {
    let ways = [way(0, North, 1), way(1, South, 0)];
    assert!(rt; are_at(rt.alloc(), 2, &ways, &[(0, 1), (0, 0)])?);
    Ok(())
}

#[test]
fn a_way_that_leads_there_alone_is_kept_too(rt: HostRuntime) -> Result<(), Fail> {
    let ways = [way(0, Southwest, 1), way(1, West, 2)];
    assert!(rt; are_at(rt.alloc(), 3, &ways, &[(2, 0), (1, 1), (0, 1)])?);
    Ok(())
}

#[test]
fn a_line_is_as_long_as_the_way_round_asks(rt: HostRuntime) -> Result<(), Fail> {
    // round from 0: north, east, east, south, and back west
    let ways = [
        way(0, North, 1),
        way(1, South, 0),
        way(1, East, 2),
        way(2, West, 1),
        way(2, East, 3),
        way(3, West, 2),
        way(3, South, 4),
        way(4, North, 3),
        way(4, West, 0),
        way(0, East, 4),
    ];
    let places = [(0, 1), (0, 0), (1, 0), (2, 0), (2, 1)];
    assert!(rt; are_at(rt.alloc(), 5, &ways, &places)?);
    Ok(())
}

#[test]
fn of_two_ways_that_contradict_the_first_is_kept(rt: HostRuntime) -> Result<(), Fail> {
    let ways = [way(0, North, 1), way(1, North, 0)];
    assert!(rt; are_at(rt.alloc(), 2, &ways, &[(0, 1), (0, 0)])?);
    Ok(())
}

#[test]
fn ways_there_and_back_go_before_those_there_alone(rt: HostRuntime) -> Result<(), Fail> {
    // 2 can't be both north and south of 0
    let ways = [
        way(0, North, 1),
        way(0, South, 2),
        way(1, North, 2),
        way(2, South, 1),
        way(1, South, 0),
    ];
    assert!(rt; are_at(rt.alloc(), 3, &ways, &[(0, 2), (0, 1), (0, 0)])?);
    Ok(())
}

#[test]
fn up_and_down_inside_and_outside_lie_aslant(rt: HostRuntime) -> Result<(), Fail> {
    let alloc = rt.alloc();
    let up = [way(0, Up, 1), way(1, Down, 0)];
    assert!(rt; are_at(alloc, 2, &up, &[(0, 1), (1, 0)])?);
    let inside = [way(0, Inside, 1), way(1, Outside, 0)];
    assert!(rt; are_at(alloc, 2, &inside, &[(0, 0), (1, 1)])?);
    Ok(())
}

#[test]
fn two_rooms_with_one_wish_stand_side_by_side(rt: HostRuntime) -> Result<(), Fail> {
    // 2 and 3 are both above 0's row, to the north of 1 and up from 0, and none says which is which
    let ways = [way(0, Up, 1), way(0, Up, 2)];
    assert!(rt; are_at(rt.alloc(), 3, &ways, &[(0, 1), (1, 0), (2, 0)])?);
    Ok(())
}

#[test]
fn a_room_doesnt_stand_on_the_line_between_two_others(rt: HostRuntime) -> Result<(), Fail> {
    // 3 is up from 0, and would stand between 1 and 2
    let ways = [
        way(0, North, 1),
        way(1, East, 4),
        way(4, East, 2),
        way(2, West, 4),
        way(4, West, 1),
        way(0, Up, 3),
    ];
    let spots = laid_out(rt.alloc(), 5, 0, &ways)?;
    let row = spots.get(1).map_or(0, |spot| spot.row);
    let other = spots.get(3).map_or(0, |spot| spot.row);
    assert!(rt; row != other);
    Ok(())
}

#[test]
fn rooms_that_no_way_reaches_stand_below(rt: HostRuntime) -> Result<(), Fail> {
    let alloc = rt.alloc();
    let ways = [
        way(0, North, 1),
        way(2, East, 3),
        way(3, West, 2),
        way(4, South, 0),
    ];
    let places = [(0, 1), (0, 0), (0, 3), (1, 3), (2, 3)];
    assert!(rt; are_at(alloc, 5, &ways, &places)?);
    let reached = reached_from(alloc, 5, 0, &ways)?;
    assert!(rt; reached.as_slice() == [true, true, false, false, false].as_slice());
    Ok(())
}

#[test]
fn a_way_to_where_it_began_or_to_none_is_passed_over(rt: HostRuntime) -> Result<(), Fail> {
    let ways = [way(0, North, 0), way(0, East, 9), way(7, West, 0)];
    assert!(rt; are_at(rt.alloc(), 1, &ways, &[(0, 0)])?);
    Ok(())
}
