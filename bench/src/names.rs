//! Lists of distinct names: each function gives a list of so many.

/// Words of private flags and message classes of network drivers.
const WORDS: &str = "\
    rx tx vf pf hw fw ip rq on mac phy lro gro tso rss ptp fec dcb veb cqe xdp esp udp tcp gre atr mdd eee wol drv \
    err mpls lldp vlan sctp link down flow true auto base port ring hash wake intr done ifup trap skip sync ipsec \
    vxlan queue close reset moder split pause stats total trust spoof check table magic probe timer agent legacy \
    source enable filter header gather inline mirror bypass energy detect status queued ifdown macsec geneve promisc \
    support disable pruning polling offload scatter unicast channel through pktdata private default weight striding \
    director eviction compress checksum complete coalesce adaptive loopback steering shutdown multicast timestamp";

/// How many words a name has, as often as it stands here.
const LENGTHS: [usize; 8] = [1, 2, 2, 2, 3, 3, 3, 4];

/// Numbers without an order that shows, the same ones each time (Knuth's multiplier for 64 bits).
struct Draw(u64);

impl Draw {
    fn one_of<T: Copy>(&mut self, choices: &[T]) -> T {
        self.0 = self.0.wrapping_mul(6_364_136_223_846_793_005).wrapping_add(1_442_695_040_888_963_407);
        choices[(self.0 >> 33) as usize % choices.len()]
    }

    fn name(&mut self, words: &[&str]) -> String {
        let mut name: Vec<&str> = (0..self.one_of(&LENGTHS)).map(|_| self.one_of(words)).collect();
        name.dedup();
        name.join("-")
    }
}

/// Names as drivers have them: words joined by hyphens, 2 to 24 bytes. A short list is the beginning of a long one.
pub fn driver_like(bits: usize) -> Vec<String> {
    let words: Vec<&str> = WORDS.split(' ').collect();
    let mut draw = Draw(0);
    let mut names = Vec::new();
    while names.len() < bits {
        let name = draw.name(&words);
        if name.len() <= 24 && !names.contains(&name) {
            names.push(name);
        }
    }
    names
}

/// Names that differ in their last three bytes, of one length.
pub fn numbered(bits: usize) -> Vec<String> {
    (0..bits).map(|bit| format!("flag-{bit:03}")).collect()
}

/// Names of one length that end in the same byte.
pub fn same_end(bits: usize) -> Vec<String> {
    (0..bits).map(|bit| format!("queue-{bit:03}-mode")).collect()
}

/// Names that differ only near their ends, so that comparing them is not over at the first byte.
pub fn queues(bits: usize) -> Vec<String> {
    (0..bits).map(|bit| format!("storm-guard-queue-{bit:03}")).collect()
}
