//! Random pairs of volumes, also damaged ones, joined beside the plain join, and what joining is as
//! a whole.

use crate::support::joins::*;
use crate::support::*;

/// Pairs of every sort, and now and then damage in either volume or a short output.
#[test]
fn random_pairs() {
    let seed = 25_024;
    let mut rng = Rng::new(seed);
    let mut trial = Trial::default();
    for round in 0..6_000 {
        trial.case = format!("seed {seed}, round {round}");
        let bill = random_bill(&mut rng);
        let [mut first, mut second] = bill.volumes();
        match rng.below(12) {
            0 => damage(&mut rng, &bill.first, &mut first),
            1 => damage(&mut rng, &bill.second, &mut second),
            2 => {
                damage(&mut rng, &bill.first, &mut first);
                damage(&mut rng, &bill.second, &mut second);
            }
            _ => {}
        }
        let any = rng.below(bill.room());
        let more = bill.room() + rng.pick(&[0, 0, 1, 511, 512, 4_000]);
        let room = rng.pick(&[more, more, more, more, more, bill.room() - 1, any]);
        let _ = trial.join(&first, &second, bill.raise, room);
    }
    trial.assert_met(Call::Join, 20, &[0, 1, 2, 3, 4, 5, 6, 7, 8, 20, 24, 25]);
    trial.assert_met(Call::JoinSecond, 10, &[1, 2, 3, 4, 5, 6, 7, 8]);
    let met = trial.met(Call::Join);
    assert!(met[&0] > 2_000 && met[&25] > 800 && met[&24] > 200 && met[&20] > 400, "{met:?}");
}

/// Of three works the first two may be joined first, or the last two; a volume without a posting on
/// either side changes nothing but the documents.
#[test]
fn three_works() {
    let seed = 3;
    let mut rng = Rng::new(seed);
    let mut trial = Trial::default();
    for round in 0..400 {
        trial.case = format!("seed {seed}, round {round}");
        let count = 1 + rng.below(9);
        let works: Vec<Lists> = (0..3)
            .map(|_| {
                let docs = 1 + rng.word() % 15_000;
                lists_in(&mut rng, 0..docs, count)
            })
            .collect();
        let volumes: Vec<Vec<u8>> = works.iter().map(Lists::volume).collect();
        // The works end below document 15,000 each.
        let [second, third] = [15_000, 30_000].map(|doc| doc + rng.word() % 5_000);
        let third = third + 5_000;
        let room = works.iter().map(Lists::room).sum();
        let mut join = |first: &[u8], second: &[u8], raise: u32| {
            trial.join(first, second, raise, room).expect("the works are apart")
        };
        let front = join(&volumes[0], &volumes[1], second);
        let back = join(&volumes[1], &volumes[2], third - second);
        let whole = join(&front, &volumes[2], third);
        assert!(join(&volumes[0], &back, second) == whole, "{round}");

        let none = Lists { counts: vec![0; count], postings: vec![] }.volume();
        assert!(join(&whole, &none, third) == whole, "{round}");
        assert!(join(&none, &whole, 0) == whole, "{round}");
        let raised = join(&none, &back, second);
        assert!(join(&volumes[0], &raised, 0) == whole, "{round}");
    }
}
