//! What policy_bench.py compares the policy's tables with: the same users in sorted vectors, in Rust with std alone.
//!
//!   policy_baseline USERS ROUNDS alike|apart
//!
//! A vector in order of digests, which stand in it, and one in order of names, which stand behind an `Arc`; a look-up is a binary search.
use std::hint::black_box;
use std::sync::Arc;
use std::time::Instant;

struct User {
    name: String,
    digest: [u8; 32],
    roles: Vec<String>,
}

fn mix(x: u64) -> u64 {
    let x = x.wrapping_mul(0x9e37_79b9_7f4a_7c15);
    let x = (x ^ (x >> 30)).wrapping_mul(0xbf58_476d_1ce4_e5b9);
    let x = (x ^ (x >> 27)).wrapping_mul(0x94d0_49bb_1331_11eb);
    x ^ (x >> 31)
}

fn digest(k: u64) -> [u8; 32] {
    let mut digest = [0; 32];
    let mut x = mix(k);
    for (i, byte) in digest.iter_mut().enumerate() {
        if i % 8 == 0 {
            x = mix(x.wrapping_add(i as u64));
        }
        *byte = x as u8;
        x >>= 8;
    }
    digest
}

fn name(k: u64, alike: bool) -> String {
    let number = k + 100_000;
    if alike { format!("user.{number}") } else { format!("{:x}.{number}", mix(k)) }
}

/// The place of the k-th user in an order without rule.
fn place(k: u64) -> u64 {
    k.wrapping_mul(40_503).wrapping_add(11) & 65_535
}

fn tell(what: &str, count: usize, look_up: impl FnOnce() -> usize) {
    let start = Instant::now();
    let found = black_box(look_up());
    println!("{what} {} {count} {found}", start.elapsed().as_nanos());
}

fn main() {
    let words: Vec<String> = std::env::args().skip(1).collect();
    let [users, rounds, names] = &words[..] else { panic!("usage: policy_baseline USERS ROUNDS alike|apart") };
    let (users, rounds): (u64, u64) = (users.parse().expect("a number"), rounds.parse().expect("a number"));
    let alike = names == "alike";
    let asked = || (0..65_536).map(|k| place(place(k) ^ 21_845)).filter(|&it| it < users);
    let made = |k: u64| Arc::new(User { name: name(k, alike), digest: digest(k), roles: if k == 0 { vec!["Admin".to_string()] } else { vec![] } });
    let mut by_name: Vec<Arc<User>> = (0..65_536).map(place).filter(|&it| it < users).map(made).collect();
    by_name.sort_by(|a, b| a.name.cmp(&b.name));
    let mut by_digest: Vec<([u8; 32], Arc<User>)> = by_name.iter().map(|it| (it.digest, it.clone())).collect();
    by_digest.sort_by_key(|it| it.0);
    let digests: Vec<[u8; 32]> = asked().map(digest).collect();
    let names: Vec<String> = asked().map(|it| name(it, alike)).collect();
    for _ in 0..rounds {
        tell("digest_rust", digests.len(), || {
            let find = |digest: &[u8; 32]| by_digest.binary_search_by(|it| it.0.cmp(digest)).map(|it| &by_digest[it].1);
            digests.iter().filter(|it| find(it).is_ok_and(|it| black_box(it).name.len() > 1)).count()
        });
        tell("name_rust", names.len(), || {
            let find = |name: &str| by_name.binary_search_by(|it| it.name.as_str().cmp(name)).map(|it| &by_name[it]);
            names.iter().filter(|it| find(it).is_ok_and(|it| black_box(it).roles.is_empty())).count()
        });
    }
}
