# Request 6: the number lost by the opposite of an inequality and the second one of an equality.
# file src/algebra.rs
/^    let below = Rule {/,/^    };/ s/number: rule\.number,/number: 0,/
