"""The wrong readings of document 01, and which of them is taken (none, unless it is asked for)."""

# Each with what it does instead of 01.
WRONG_READINGS = {
    "slot-of-row-v": "step 5 reads slot v times index_size + i",
    "store-at-two-empty": "an offer that meets two empty slots is stored",
    "stale-is-empty": "step 5 takes a live slot behind its row's first empty one for empty",
    "own-row-not-offered": "step 5 does not offer v to row v",
    "recomputed-offer": "step 5 offers the distance of v and w",
    "no-mark-after-choice": "step 5 leaves the slot after the chosen live",
    "all-marked-after-choice": "step 5 marks every slot after the chosen empty",
    "equal-node-passes": "an equal node does not occlude in step 5",
    "own-members-limited": "own members stop at neighbor_neighbor_size too",
    "own-members-first": "own members are taken before the walk",
    "nearest-first": "exact lists are walked nearest first",
    "limit-late": "step 2 stops only after a member's whole list",
    "threshold-occludes": "c equal to the threshold occludes",
    "nan-occludes": "a NaN occludes",
    "two-dp-first": "(2*dp)*dr in place of 2*(dp*dr)",
    "sum-regrouped": "dp*dp + (dr*dr - djk*djk) in place of (dp*dp + dr*dr) - djk*djk",
    "djk-stored": "djk is the difference of the stored distances",
    "fused-square": "the distance's t*t is not rounded before it is added",
    "lanes-falling": "the distance adds its lanes from the last",
    "break-on-equal": "an equal distance ends a row in search",
    "replaced-not-taken": "a node replaced in the best set is passed over in the queue",
    "later-roots-unseen": "roots beyond the first k are not marked seen",
    "best-grows": "the best set grows to k",
    "row-past-end": "a row is read past its first value of n or more",
    "first-s-kept": "a cut new list keeps its first s places",
    "unvisited-both-ways": "a kept pair becomes unvisited both ways",
    "cut-pairs-unvisited": "the pairs that a cut threw away become unvisited too",
    "only-cut-unvisits": "pairs become unvisited only where a list was cut",
    "turned-round": "a reversed-new pair with the larger node first is turned round",
    "no-diagonal": "equal nodes are not marked visited",
    "new-and-old-swapped": "a visited entry becomes old",
    "total-after-cut": "the total of new is counted after the cut",
    "cost-counts-equal": "an update of equal nodes counts",
    "new-before-old": "the shared new list is shuffled before the old",
    "own-reversed-lists": "each node has reversed lists of its own",
    "reversed-tail-kept": "a cut reversed list keeps its last s places",
    "shuffle-rises": "a shuffle runs p from 1 up",
    "look-at-place-k": "a look compares with place k - 1",
    "look-refuses-equal": "a look refuses an equal distance",
    "push-behind-equal": "a push stands behind all of its distance",
    "equal-nodes-offered": "a job with u = v offers",
}

taken = None


def take(name):
    global taken
    assert name in WRONG_READINGS, "no such wrong reading"
    taken = name


def wrong(name):
    assert name in WRONG_READINGS
    return taken == name
