//! An ordinary flow program: Dinic on split relays. It knows nothing of orders and forests.

use crate::sweep::Wish;
use crate::table::Network;

/// A network with every relay split into a way in (2r) and a way out (2r + 1).
pub struct Flow {
    first: Vec<i32>,
    next: Vec<i32>,
    head: Vec<u32>,
    room: Vec<u32>,
    level: Vec<i32>,
    at: Vec<i32>,
    queue: Vec<u32>,
}

impl Flow {
    /// One route at most through each relay but the two ends, over the links with both ends in service.
    pub fn new(net: &Network, from: u16, to: u16) -> Flow {
        let nodes = 2 * usize::from(net.n);
        let edges = 2 * usize::from(net.n) + 4 * net.lows.len();
        let mut flow = Flow {
            first: vec![-1; nodes],
            next: Vec::with_capacity(edges),
            head: Vec::with_capacity(edges),
            room: Vec::with_capacity(edges),
            level: vec![-1; nodes],
            at: vec![-1; nodes],
            queue: Vec::with_capacity(nodes),
        };
        for relay in 0..u32::from(net.n) {
            let end = relay == u32::from(from) || relay == u32::from(to);
            flow.edge(2 * relay, 2 * relay + 1, if end { u32::MAX / 2 } else { 1 });
        }
        for (a, b) in net.links().filter(|&(a, b)| net.serves(a) && net.serves(b)) {
            let (a, b) = (u32::from(a), u32::from(b));
            flow.edge(2 * a + 1, 2 * b, 1);
            flow.edge(2 * b + 1, 2 * a, 1);
        }
        flow
    }

    fn edge(&mut self, from: u32, to: u32, room: u32) {
        for (tail, head, room) in [(from, to, room), (to, from, 0)] {
            self.next.push(self.first[tail as usize]);
            self.first[tail as usize] = self.head.len() as i32;
            self.head.push(head);
            self.room.push(room);
        }
    }

    fn levels(&mut self, source: u32, sink: u32) -> bool {
        self.level.fill(-1);
        self.level[source as usize] = 0;
        self.queue.clear();
        self.queue.push(source);
        let mut front = 0;
        while front < self.queue.len() {
            let node = self.queue[front] as usize;
            front += 1;
            let mut edge = self.first[node];
            while edge >= 0 {
                let head = self.head[edge as usize] as usize;
                if self.room[edge as usize] > 0 && self.level[head] < 0 {
                    self.level[head] = self.level[node] + 1;
                    if head == sink as usize {
                        return true;
                    }
                    self.queue.push(head as u32);
                }
                edge = self.next[edge as usize];
            }
        }
        false
    }

    fn push(&mut self, node: u32, sink: u32) -> bool {
        if node == sink {
            return true;
        }
        while self.at[node as usize] >= 0 {
            let edge = self.at[node as usize] as usize;
            let head = self.head[edge];
            if self.room[edge] > 0 && self.level[head as usize] == self.level[node as usize] + 1 && self.push(head, sink) {
                self.room[edge] -= 1;
                self.room[edge ^ 1] += 1;
                return true;
            }
            self.at[node as usize] = self.next[edge];
        }
        false
    }

    /// How many routes there are without a relay in common between the ends, counted up to `most`.
    pub fn routes(&mut self, from: u16, to: u16, most: usize) -> usize {
        let (source, sink) = (2 * u32::from(from) + 1, 2 * u32::from(to));
        let mut found = 0;
        while found < most && self.levels(source, sink) {
            self.at.copy_from_slice(&self.first);
            while found < most && self.push(source, sink) {
                found += 1;
            }
        }
        found
    }

    /// The relays that the flow goes on to from a relay.
    fn onward(&self, relay: u16) -> impl Iterator<Item = u16> {
        let mut edge = self.first[2 * usize::from(relay) + 1];
        std::iter::from_fn(move || {
            while edge >= 0 {
                let at = edge as usize;
                edge = self.next[at];
                if at.is_multiple_of(2) && self.room[at] == 0 {
                    return Some((self.head[at] / 2) as u16);
                }
            }
            None
        })
    }

    /// Writes the routes found as Route lists them: how many relays each has, and the relays one after another.
    /// Gives how many relays it wrote.
    pub fn write(&self, from: u16, to: u16, counts: &mut [u16], relays: &mut [u16]) -> usize {
        let mut written = 0;
        for (count, second) in counts.iter_mut().zip(self.onward(from)) {
            let start = written;
            relays[written] = from;
            written += 1;
            let mut relay = second;
            while relay != to {
                relays[written] = relay;
                written += 1;
                relay = self.onward(relay).next().expect("a route goes on to its end");
            }
            relays[written] = to;
            written += 1;
            *count = (written - start) as u16;
        }
        written
    }
}

/// The greatest number of routes between two different relays in service without a relay in common between the ends, counted up to `most`.
pub fn greatest(net: &Network, from: u16, to: u16, most: usize) -> usize {
    Flow::new(net, from, to).routes(from, to, most)
}

/// An ordinary program in Route's place: finds k routes, writes them as Route does and gives how many relays it wrote; none if there
/// are fewer routes. It checks nothing.
pub fn route(net: &Network, wish: Wish, counts: &mut [u16], relays: &mut [u16]) -> Option<usize> {
    let Wish { k, from, to } = wish;
    let mut flow = Flow::new(net, from, to);
    if flow.routes(from, to, usize::from(k)) < usize::from(k) {
        return None;
    }
    Some(flow.write(from, to, &mut counts[..usize::from(k)], relays))
}
