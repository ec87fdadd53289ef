# Request 12: a point counts once for each basic set that holds it.
# file src/count.rs
s/^        if passes && prefix.len() == set.n {/        let mut point = [0; 8];\
        point[..prefix.len()].copy_from_slice(prefix);\
        let times = set.basics.iter().filter(|basic| basic.holds(\&point)).count() as u32;\
&/
s/+= 1;/+= times;/
