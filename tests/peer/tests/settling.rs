//! Settling by itself: costs and met preferences at their limits, and refused files.

mod common;

use common::*;
use peer::random::{arguments, case};
use peer::*;

const MOST: u64 = 8_796_093_020_160;

/// The file of a task with a preference of each of these weights.
fn weighted(weights: &[u32]) -> Vec<u8> {
    let mut task = bare_task(1, 0, weights.len());
    for (k, weight) in weights.iter().enumerate() {
        task.preferences[k].kind = Kind::all(k)[k % 8];
        task.preferences[k].weight = *weight;
    }
    encode(&task)
}

fn worth_of(metric: u64, utility: i64) -> Result<Worth, Refusal> {
    Ok(Worth { metric, utility })
}

#[test]
fn the_belt() {
    let belt = belt();
    for (met, metric, utility) in [(0b00, 15, -3), (0b01, 10, 2), (0b10, 8, 4), (0b11, 3, 9)] {
        assert_eq!(settle(&belt, 3, met), worth_of(metric, utility), "{met:b}");
    }
    for (plan, metric, utility) in [(&[0][..], 8, 4), (&[0, 1, 1, 0], 13, -1)] {
        let Ok(Verdict::Solved { cost, met }) = walk(&belt, plan).map(|walked| walked.verdict)
        else {
            panic!("{plan:?}")
        };
        assert_eq!(settle(&belt, cost, met), worth_of(metric, utility));
    }
}

#[test]
fn costs() {
    let most = MOST as i64;
    for (file, lost) in [(weighted(&[]), 0), (weighted(&[0; 16]), 0), (belt(), 12)] {
        assert_eq!(settle(&file, 0, 0), worth_of(lost, 0));
        assert_eq!(
            settle(&file, MOST - 1, 0),
            worth_of(MOST - 1 + lost, 1 - most)
        );
        assert_eq!(settle(&file, MOST, 0), worth_of(MOST + lost, -most));
        for cost in [2_048_000_001, 1 << 31, 1 << 32, (1 << 32) + 3, 1 << 42] {
            let worth = worth_of(cost + lost, -(cost as i64));
            assert_eq!(settle(&file, cost, 0), worth, "{cost}");
        }
        for cost in [MOST + 1, MOST + (1 << 32), 1 << 43, 1 << 63, u64::MAX] {
            assert_eq!(settle(&file, cost, 0), refused(15, 0), "{cost}");
        }
    }
}

/// Each bit by itself, for every P: below P it is a met preference, from P on refused.
#[test]
fn bits() {
    for preferences in 0..=16 {
        let weights: Vec<u32> = (0..preferences).map(|k| 1 << k).collect();
        let file = weighted(&weights);
        let all = (1 << preferences) - 1;
        for bit in 0..64 {
            let met = 1 << bit;
            let expected = match bit < preferences {
                true => worth_of(all - met, met as i64),
                false => refused(15, 0),
            };
            assert_eq!(
                settle(&file, 0, met),
                expected,
                "P {preferences}, bit {bit}"
            );
            let with_all = settle(&file, 0, all | met);
            assert_eq!(
                with_all.is_ok(),
                bit < preferences,
                "P {preferences}, bit {bit}"
            );
        }
        assert_eq!(settle(&file, 0, all), worth_of(0, all as i64));
        assert_eq!(settle(&file, 0, u64::MAX), refused(15, 0));
    }
}

#[test]
fn weights() {
    let heavy = weighted(&[u32::MAX; 16]);
    let all = 0xFFFF;
    assert_eq!(settle(&heavy, 0, all), worth_of(0, 68_719_476_720));
    assert_eq!(settle(&heavy, 0, 0), worth_of(68_719_476_720, 0));
    for (met, metric, utility) in [
        (0, 8_864_812_496_880, -8_796_093_020_160),
        (1 << 15, 8_860_517_529_585, -8_791_798_052_865),
        (all, 8_796_093_020_160, -8_727_373_543_440),
    ] {
        assert_eq!(settle(&heavy, MOST, met), worth_of(metric, utility));
    }
    assert_eq!(
        settle(&weighted(&[1_000_000; 16]), 2_048_000_000, 0),
        worth_of(2_064_000_000, -2_048_000_000)
    );
    assert_eq!(settle(&weighted(&[0; 16]), 7, 0x5555), worth_of(7, -7));
    assert_eq!(
        settle(&weighted(&[0, 1_000_000]), 1, 0b10),
        worth_of(1, 999_999)
    );
    assert_eq!(
        settle(&weighted(&[0, 1_000_000]), 1, 0b01),
        worth_of(1_000_001, -1)
    );
}

/// 2,048 steps of the largest cost, with sixteen of the largest weights: walked, settled and reported.
#[test]
fn largest_amounts() {
    for (word, met, metric, utility) in [
        ("HOLDS", 0, 8_864_812_496_880, -8_796_093_020_160),
        ("LACKS", 0xFFFF, MOST, -8_727_373_543_440),
    ] {
        let rules = format!("always 4294967295 CLAUSE {word} 0 ").repeat(16);
        let task = file(1, 1, 16, &format!("GOAL ACTION 4294967295 {rules}"));
        let plan = [0; 2_048];
        let verdict = walk(&task, &plan).map(|walked| walked.verdict);
        assert_eq!(verdict, Ok(Verdict::Solved { cost: MOST, met }));
        assert_eq!(settle(&task, MOST, met), worth_of(metric, utility));
        let text = report(&task, &plan);
        assert!(text.starts_with("solved steps 2048 cost 8796093020160\n0 always 4294967295 m"));
        assert!(text.ends_with(&format!("\nmetric {metric} utility {utility}\n")));
    }
}

/// A file's own refusal comes before that of the arguments.
#[test]
fn refused_files() {
    let belt = belt();
    let sized = [vec![0; 2], belt[2..].to_vec()].concat();
    for (file, number, place) in [
        (belt[..7].to_vec(), 1, 0),
        (sized, 2, 0),
        (belt[..97].to_vec(), 3, 0),
        (file(1, 0, 0, "GOAL M20"), 4, 1),
        (file(1, 0, 1, "GOAL hard-always 1"), 5, 1),
        (file(1, 0, 2, "GOAL always 1"), 6, 2),
    ] {
        for (cost, met) in [
            (0, 0),
            (3, 1),
            (MOST + 1, 0),
            (0, 1 << 63),
            (u64::MAX, u64::MAX),
        ] {
            assert_eq!(settle(&file, cost, met), refused(number, place));
        }
    }
}

/// What a walk gives is taken by settle, and is what the report's last line says.
#[test]
fn walks_are_settled() {
    let mut tried = 0;
    for seed in 0..6_000 {
        let case = case(seed);
        let Ok(Verdict::Solved { cost, met }) =
            walk(&case.file, &case.plan).map(|walked| walked.verdict)
        else {
            continue;
        };
        let worth = settle(&case.file, cost, met).expect("a walk's own");
        let line = format!("\nmetric {} utility {}\n", worth.metric, worth.utility);
        assert!(
            report(&case.file, &case.plan).ends_with(&line),
            "seed {seed}"
        );
        tried += 1;
    }
    assert!(tried > 1_000, "{tried}");
}

/// Metric and utility add up to the weights of all preferences: each is missed or met, and the cost goes out.
#[test]
fn each_weight_counts_once() {
    let mut tried = 0;
    for seed in 0..6_000 {
        let file = case(seed).file;
        let (cost, met) = arguments(seed, &file);
        let Ok(worth) = settle(&file, cost, met) else {
            continue;
        };
        let task = decode(&file).expect("settled, so accepted");
        let weights: i64 = task.preferences.iter().map(|p| i64::from(p.weight)).sum();
        assert_eq!(worth.metric as i64 + worth.utility, weights, "seed {seed}");
        tried += 1;
    }
    assert!(tried > 1_000, "{tried}");
}
