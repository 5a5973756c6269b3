//! Slips in the refusals of a pair, their order and what they leave.

use limbegoru_model::{Arena, Call, Done, Find};

use crate::{pair_noticed, PairCall};

#[test]
fn overlapping_lands() {
    pair_noticed("overlapping lands are not tested", |it: PairCall| {
        if it.done.answer == 6 && it.lands().is_some() {
            it.done.answer = 2;
        }
    });
    pair_noticed("lands that touch are taken for overlapping", |mut it: PairCall| {
        let runs = it.lands().map(|lands| (lands.runs().len(), lands.list.len() + lands.block.len()));
        if runs.is_some_and(|(runs, ranges)| runs < ranges) {
            it.back();
            *it.done = Done::refused(it.pair, 6);
        }
    });
    pair_noticed("a request is checked before the overlap", |it: PairCall| match it.call {
        Call::Find(Find::First | Find::Last, 0, _) if it.done.answer == 6 && it.lands().is_some() => {
            it.done.answer = 4;
        }
        _ => {}
    });
}

#[test]
fn one_and_seven() {
    pair_noticed("7 comes before 1", |it: PairCall| match (it.lands(), it.call) {
        (Some(lands), Call::Delete(range)) if it.done.answer == 1 && !lands.free(range).contains(&0) => {
            it.done.answer = 7;
        }
        _ => {}
    });
    pair_noticed("7 is given as 1", |it: PairCall| {
        if it.done.answer == 7 {
            it.done.answer = 1;
        }
    });
    pair_noticed("what lies in both lands is taken out", |it: PairCall| it.done.answer %= 7);
    for (land, name) in ["list", "block land"].into_iter().enumerate() {
        let name = format!("an insert tests the {name} alone for free bytes");
        pair_noticed(&name, move |it: PairCall| match (it.lands(), it.call) {
            (Some(lands), Call::Insert(range)) if it.done.answer == 1 && lands.free(range)[land] == 0 => {
                it.done.answer = 0;
            }
            _ => {}
        });
    }
}

#[test]
fn what_a_refusal_leaves() {
    for answer in [1, 2, 4, 5, 6, 7] {
        pair_noticed(&format!("{answer} changes a word of node space"), move |it: PairCall| {
            if let ([first, ..], true) = (it.nodes, it.done.answer == answer) {
                *first ^= 1 << 40;
            }
        });
        pair_noticed(&format!("{answer} changes a word of the arena"), move |it: PairCall| {
            if let ([.., last], true) = (it.words, it.done.answer == answer) {
                *last ^= 1;
            }
        });
    }
    for answer in [1, 2, 4, 7] {
        pair_noticed(&format!("{answer} comes after a flush"), move |mut it: PairCall| {
            if it.done.answer == answer {
                it.flush();
            }
        });
    }
    pair_noticed("an odd last word is written", |it: PairCall| {
        let odd = it.nodes.len() % 2 == 1;
        if let ([.., last], 0, true) = (it.nodes, it.done.answer, odd) {
            *last = 0;
        }
    });
}

#[test]
fn differing_lands() {
    type Number = fn(&Arena) -> u64;
    let numbers: [(&str, Number); 3] = [("bases", Arena::base), ("limits", Arena::limit), ("alignments", Arena::align)];
    for (compared, (name, _)) in numbers.into_iter().enumerate() {
        pair_noticed(&format!("the {name} are not compared"), move |it: PairCall| {
            let [Some(one), Some(other)] = it.given().arenas() else {
                return;
            };
            let mut others = numbers.iter().enumerate().filter(|(place, _)| *place != compared);
            if it.done.answer == 5 && others.all(|(_, (_, number))| number(&one) == number(&other)) {
                it.done.answer = 6;
            }
        });
    }
}

#[test]
fn order_of_five_and_six() {
    pair_noticed("the list is read before the block land's set-up is tested", |it: PairCall| {
        if let (5, [Some(_), None], [None, _]) = (it.done.answer, it.given().arenas(), it.given().ranges()) {
            it.done.answer = 6;
        }
    });
    pair_noticed("the list is read before the two arenas are compared", |it: PairCall| {
        if let (5, [Some(_), Some(_)], [None, _]) = (it.done.answer, it.given().arenas(), it.given().ranges()) {
            it.done.answer = 6;
        }
    });
    pair_noticed("the table is read before the two arenas are compared", |it: PairCall| {
        if let (5, [Some(_), Some(_)], [_, None]) = (it.done.answer, it.given().arenas(), it.given().ranges()) {
            it.done.answer = 6;
        }
    });
}
