# Request 3: the opposites of a void equality made from the rule divided by g.
# file src/algebra.rs
/for opposite in opposites(&rule) {/c\
        let g = common_divisor(\&rule).max(1);\
        let divided = Rule {\
            kind: rule.kind,\
            number: rule.number,\
            constant: rule.constant.div_euclid(g),\
            axes: rule.axes.map(|k| k / g),\
            divs: rule.divs.map(|k| k / g),\
        };\
        for opposite in opposites(\&divided) {
