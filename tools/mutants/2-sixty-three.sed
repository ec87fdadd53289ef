# Request 2: 64 points refused.
# file src/fleet.rs
s/> MOST_POINTS {/>= MOST_POINTS {/
