/// Appended to the source's node.rs, so that it reaches the private functions.
pub mod driver {
    use super::*;
    use crate::oz;
    use std::cmp::Ordering as Order;

    /// A key that knows the slot of its node; pairs are compared by the key alone.
    #[derive(Debug)]
    pub struct Name {
        pub key: u64,
        pub slot: u32,
    }

    impl PartialEq for Name {
        fn eq(&self, other: &Self) -> bool {
            self.key == other.key
        }
    }
    impl Eq for Name {}
    impl PartialOrd for Name {
        fn partial_cmp(&self, other: &Self) -> Option<Order> {
            Some(self.cmp(other))
        }
    }
    impl Ord for Name {
        fn cmp(&self, other: &Self) -> Order {
            self.key.cmp(&other.key)
        }
    }

    pub(crate) type Entry = BinEntry<Name, u32>;
    pub(crate) type Tn = TreeNode<Name, u32>;
    pub(crate) type P = Shared<'static, Entry>;

    pub(crate) static COLLECTOR: Collector = Collector;

    pub(crate) fn guard() -> &'static Guard<'static> {
        static GUARD: std::sync::OnceLock<Guard<'static>> = std::sync::OnceLock::new();
        GUARD.get_or_init(|| unsafe { Guard::unprotected() })
    }

    pub(crate) fn null() -> P {
        Shared::null()
    }

    pub(crate) fn node(p: P) -> &'static Tn {
        unsafe { Tn::get_tree_node(p) }
    }

    /// Writes the colour and the links of a slot's cells to its node; `at` is the node of a link.
    pub(crate) fn set_links(x: &Tn, c: &[u32], at: impl Fn(u32) -> P) {
        x.red.store(c[oz::STATE] == 2, O);
        x.parent.store(at(c[oz::PARENT]), O);
        x.left.store(at(c[oz::LEFT]), O);
        x.right.store(at(c[oz::RIGHT]), O);
        x.prev.store(at(c[oz::PREV]), O);
        x.node.next.store(at(c[oz::NEXT]), O);
    }

    const O: Ordering = Ordering::Relaxed;

    fn get(a: &Atomic<Entry>) -> P {
        // From a copy: the drivers' own reads are no loads of the source's links.
        a.clone().load(O, guard())
    }

    fn slot(p: P) -> u32 {
        if p.is_null() {
            oz::NULL
        } else {
            node(p).node.key.slot
        }
    }

    pub(crate) fn new_node(hash: u64, key: u64, slot: u32, place: u32) -> P {
        let value = Atomic::from(Shared::boxed(place, &COLLECTOR));
        Shared::boxed(
            BinEntry::TreeNode(TreeNode::new(hash, Name { key, slot }, value, Atomic::null(), Atomic::null())),
            &COLLECTOR,
        )
    }

    fn find_from(root: P, hash: u64, key: u64) -> u32 {
        slot(Tn::find_tree_node(root, hash, &Name { key, slot: 0 }, guard()))
    }

    /// Runs a search of the source that may load so many links: the slot that it answers, none where it loads more, and at how many nodes
    /// it has read the hash. At the node that has the pair it loads no link, at any other one link, or the left and then the right one;
    /// `own` says which links are a node's.
    #[cfg(feature = "trace")]
    pub(crate) fn searched(limit: usize, own: impl Fn(&usize) -> bool, search: impl FnOnce() -> u32) -> (Option<u32>, usize) {
        seize::trace::start(limit);
        let found = std::panic::catch_unwind(std::panic::AssertUnwindSafe(search)).ok();
        let mut loads = seize::trace::stop();
        loads.retain(own);
        let apart = std::mem::offset_of!(Tn, right).wrapping_sub(std::mem::offset_of!(Tn, left));
        let both = loads.windows(2).filter(|w| w[1].wrapping_sub(w[0]) == apart).count();
        let hit = found.is_some_and(|at| at != oz::NULL);
        (found, loads.len() - both + hit as usize)
    }

    fn free(p: P) {
        unsafe {
            drop(node(p).node.value.clone().into_box());
            drop(p.into_box());
        }
    }

    /// Which of the source's routines a tree is changed by.
    #[derive(Clone, Copy, PartialEq, Eq, Debug)]
    pub enum By {
        /// docs/RULES.md, section 4, over the source's rotations and balancing.
        Drivers,
        /// `find_or_put_tree_val`, and `remove_tree_node` wherever its early return does not fire.
        Bin,
    }

    /// How a remove was made.
    #[derive(Clone, Copy, PartialEq, Eq, Debug)]
    pub enum Removal {
        Drivers,
        Whole,
    }

    /// A tree of the source's nodes, with the node of each slot.
    pub struct Tree {
        bin: TreeBin<Name, u32>,
        nodes: Vec<P>,
        count: u32,
        by: By,
    }

    impl Tree {
        pub fn new(slots: usize, by: By) -> Self {
            Tree {
                bin: TreeBin {
                    root: Atomic::null(),
                    first: Atomic::null(),
                    waiter: Atomic::null(),
                    lock: parking_lot::Mutex::new(()),
                    lock_state: AtomicI64::new(0),
                },
                nodes: vec![null(); slots],
                count: 0,
                by,
            }
        }

        /// A tree of any links, from words whose links are null or name a slot; every slot has a node.
        pub fn of_words(ix: &oz::Index) -> Self {
            let n = ix.slots();
            let mut t = Tree::new(n, By::Drivers);
            for i in 0..n {
                t.nodes[i] = new_node(ix.names[2 * i], ix.names[2 * i + 1], i as u32, ix.cells[7 * i]);
            }
            t.set_words(ix);
            t
        }

        /// Writes the links, colours and header of the words, which have the same names.
        pub fn set_words(&mut self, ix: &oz::Index) {
            let at = |l: u32| if l == oz::NULL { null() } else { self.nodes[l as usize] };
            for i in 0..ix.slots() {
                set_links(node(self.nodes[i]), &ix.cells[7 * i..7 * i + 7], at);
            }
            self.bin.root.store(at(ix.head[0]), O);
            self.bin.first.store(at(ix.head[1]), O);
            self.count = ix.head[2];
        }

        /// Puts one slot's node anew, with this name.
        pub fn rename(&mut self, i: u32, hash: u64, key: u64) {
            free(self.nodes[i as usize]);
            self.nodes[i as usize] = new_node(hash, key, i, 0);
        }

        fn root(&self) -> P {
            get(&self.bin.root)
        }

        fn first(&self) -> P {
            get(&self.bin.first)
        }

        /// The source's find from the root.
        pub fn find(&self, hash: u64, key: u64) -> u32 {
            find_from(self.root(), hash, key)
        }

        /// The same with its looks, where it may load so many links.
        #[cfg(feature = "trace")]
        pub fn search(&self, hash: u64, key: u64, limit: usize) -> (Option<u32>, usize) {
            let root = self.root();
            searched(limit, |_| true, || find_from(root, hash, key))
        }

        /// The slot that the source's insert answers where the pair is there, null where it puts it in.
        pub fn insert(&mut self, hash: u64, key: u64, place: u32, at: u32) -> u32 {
            match self.by {
                By::Drivers => self.drive_insert(hash, key, place, at),
                By::Bin => self.put(hash, key, place, at),
            }
        }

        fn put(&mut self, hash: u64, key: u64, place: u32, at: u32) -> u32 {
            let value = Shared::boxed(place, &COLLECTOR);
            let bin: &'static TreeBin<Name, u32> = unsafe { &*(&self.bin as *const _) };
            let there = bin.find_or_put_tree_val(hash, Name { key, slot: at }, value, guard(), &COLLECTOR);
            if there.is_null() {
                self.nodes[at as usize] = self.first();
                self.count += 1;
            } else {
                unsafe { drop(value.into_box()) };
            }
            slot(there)
        }

        /// docs/RULES.md, section 4: "hangs it where the order says, puts it at the front of the chain, then balances".
        fn drive_insert(&mut self, hash: u64, key: u64, place: u32, at: u32) -> u32 {
            let mut p = self.root();
            let mut parent = null();
            let mut to_left = false;
            while !p.is_null() {
                let d = node(p);
                let order = (hash, key).cmp(&(d.node.hash, d.node.key.key));
                if order == Order::Equal {
                    return slot(p);
                }
                parent = p;
                to_left = order == Order::Less;
                p = get(if to_left { &d.left } else { &d.right });
            }
            let x = new_node(hash, key, at, place);
            self.nodes[at as usize] = x;
            self.count += 1;
            let first = self.first();
            node(x).node.next.store(first, O);
            if !first.is_null() {
                node(first).prev.store(x, O);
            }
            self.bin.first.store(x, O);
            node(x).parent.store(parent, O);
            if !parent.is_null() {
                let side = node(parent);
                if to_left { &side.left } else { &side.right }.store(x, O);
            }
            let root = Tn::balance_insertion(self.root(), x, guard());
            self.bin.root.store(root, O);
            oz::NULL
        }

        /// Whether `remove_tree_node` would return before it restructures.
        fn returns_early(&self) -> bool {
            let root = self.root();
            if self.count == 1 || root.is_null() || get(&node(root).right).is_null() {
                return true;
            }
            let left = get(&node(root).left);
            left.is_null() || get(&node(left).left).is_null()
        }

        /// Parent, left, right and state of each slot.
        fn tree_words(&self) -> Vec<[u32; 4]> {
            self.nodes.iter().map(|p| self.words(*p).1).map(|c| [c[oz::STATE], c[oz::PARENT], c[oz::LEFT], c[oz::RIGHT]]).collect()
        }

        /// The slot that has the pair, removed; null where none has it.
        pub fn remove(&mut self, hash: u64, key: u64) -> (u32, Removal) {
            let p = Tn::find_tree_node(self.root(), hash, &Name { key, slot: 0 }, guard());
            if p.is_null() {
                return (oz::NULL, Removal::Drivers);
            }
            let at = slot(p);
            let mut removal = Removal::Drivers;
            if self.by == By::Bin {
                let early = self.returns_early();
                let tree = if early { self.tree_words() } else { Vec::new() };
                let root = self.root();
                let bin: &'static TreeBin<Name, u32> = unsafe { &*(&self.bin as *const _) };
                let small = unsafe { bin.remove_tree_node(p, true, guard(), &COLLECTOR) };
                assert_eq!(small, early, "remove_tree_node returned early or not");
                if small {
                    // It has left the tree as it was, but for the root of the last node.
                    assert!(self.count == 1 || self.root() == root);
                    assert_eq!(tree, self.tree_words());
                    self.bin.root.store(root, O);
                } else {
                    assert_eq!(unsafe { seize::reclaim_all() }, 2);
                    removal = Removal::Whole;
                }
            }
            if removal == Removal::Drivers {
                self.drive_remove(p);
                free(p);
            }
            self.nodes[at as usize] = null();
            self.count -= 1;
            (at, removal)
        }

        /// The slot that has the pair, its value changed as the source's map changes that of a node that is there; null where none has it.
        pub fn replace(&mut self, hash: u64, key: u64, place: u32) -> u32 {
            let p = Tn::find_tree_node(self.root(), hash, &Name { key, slot: 0 }, guard());
            if !p.is_null() {
                let old = node(p).node.value.swap(Shared::boxed(place, &COLLECTOR), O, guard());
                unsafe { drop(old.into_box()) };
            }
            slot(p)
        }

        /// The side of its parent that a slot stands on, or the root.
        fn place_of(&self, x: P, parent: P) -> &Atomic<Entry> {
            if parent.is_null() {
                return &self.bin.root;
            }
            let d = node(parent);
            if get(&d.left) == x {
                &d.left
            } else {
                &d.right
            }
        }

        /// Remove of docs/RULES.md, section 4, over the source's `balance_deletion`.
        fn drive_remove(&mut self, p: P) {
            let d = node(p);
            let (next, prev) = (get(&d.node.next), get(&d.prev));
            if prev.is_null() {
                self.bin.first.store(next, O);
            } else {
                node(prev).node.next.store(next, O);
            }
            if !next.is_null() {
                node(next).prev.store(prev, O);
            }
            if !get(&d.left).is_null() && !get(&d.right).is_null() {
                let mut s = get(&d.right);
                while !get(&node(s).left).is_null() {
                    s = get(&node(s).left);
                }
                self.trade(p, s);
            }
            let (left, right) = (get(&d.left), get(&d.right));
            let child = if left.is_null() { right } else { left };
            let parent = get(&d.parent);
            let replacement = if child.is_null() { p } else { child };
            if !child.is_null() {
                self.place_of(p, parent).store(child, O);
                node(child).parent.store(parent, O);
            }
            if !d.red.load(O) {
                let root = Tn::balance_deletion(self.root(), replacement, guard());
                self.bin.root.store(root, O);
            }
            if child.is_null() {
                let parent = get(&d.parent);
                self.place_of(p, parent).store(null(), O);
            }
            if self.root() == replacement && !child.is_null() {
                node(replacement).red.store(false, O);
            }
        }

        /// A slot with two children and its successor trade positions and colours.
        fn trade(&mut self, p: P, s: P) {
            let (dp, ds) = (node(p), node(s));
            let red = dp.red.load(O);
            dp.red.store(ds.red.load(O), O);
            ds.red.store(red, O);
            let (above, left, right) = (get(&dp.parent), get(&dp.left), get(&dp.right));
            let (over, below) = (get(&ds.parent), get(&ds.right));
            self.place_of(p, above).store(s, O);
            ds.parent.store(above, O);
            ds.left.store(left, O);
            node(left).parent.store(s, O);
            if right == s {
                ds.right.store(p, O);
                dp.parent.store(s, O);
            } else {
                ds.right.store(right, O);
                node(right).parent.store(s, O);
                node(over).left.store(p, O);
                dp.parent.store(over, O);
            }
            dp.left.store(null(), O);
            dp.right.store(below, O);
            if !below.is_null() {
                node(below).parent.store(p, O);
            }
        }

        /// The number of nodes below each slot's node and itself, counted by the nodes' own left and right; 0 where a slot has no node.
        pub fn sizes(&self) -> Vec<u32> {
            fn below(p: P, sizes: &mut [u32]) -> u32 {
                if p.is_null() {
                    return 0;
                }
                let d = node(p);
                let size = 1 + below(get(&d.left), sizes) + below(get(&d.right), sizes);
                sizes[slot(p) as usize] = size;
                size
            }
            let mut sizes = vec![0; self.nodes.len()];
            below(self.root(), &mut sizes);
            sizes
        }

        /// The nine words of a slot, the header and the sizes, as the index would hold them.
        pub fn differs(&self, ix: &oz::Index) -> Option<String> {
            let head = [slot(self.root()), slot(self.first()), self.count];
            if ix.head != head {
                return Some(format!("header: ours {:?}, source {:?}", ix.head, head));
            }
            for (i, p) in self.nodes.iter().enumerate() {
                let ours = (&ix.names[2 * i..2 * i + 2], &ix.cells[7 * i..7 * i + 7]);
                let (names, cells) = self.words(*p);
                if ours != (&names[..], &cells[..]) {
                    return Some(format!("slot {i}: ours {:?} {:?}, source {:?} {:?}", ours.0, ours.1, names, cells));
                }
            }
            let sizes = self.sizes();
            if ix.sizes != sizes {
                return Some(format!("sizes: ours {:?}, of the source's nodes {sizes:?}", ix.sizes));
            }
            None
        }

        fn words(&self, p: P) -> ([u64; 2], [u32; 7]) {
            let none = oz::NULL;
            if p.is_null() {
                return ([0, 0], [0, 0, none, none, none, none, none]);
            }
            let d = node(p);
            let place = unsafe { **d.node.value.clone().load(O, guard()).deref() };
            let state = if d.red.load(O) { 2 } else { 1 };
            let links = [&d.parent, &d.left, &d.right, &d.prev, &d.node.next].map(|l| slot(get(l)));
            ([d.node.hash, d.node.key.key], [place, state, links[0], links[1], links[2], links[3], links[4]])
        }

        /// Writes the words that the index would hold.
        pub fn write(&self, ix: &mut oz::Index) {
            ix.sizes.copy_from_slice(&self.sizes());
            ix.head.copy_from_slice(&[slot(self.root()), slot(self.first()), self.count]);
            for (i, p) in self.nodes.iter().enumerate() {
                let (names, cells) = self.words(*p);
                ix.names[2 * i..2 * i + 2].copy_from_slice(&names);
                ix.cells[7 * i..7 * i + 7].copy_from_slice(&cells);
            }
        }

        /// The source's check from the root.
        pub fn check(&self) {
            let root = self.root();
            if !root.is_null() {
                Tn::check_invariants(root, guard());
            }
        }

        /// The slots that the check entered, in order: those whose own five links were loaded one after another, in the order in which
        /// the check loads them.
        pub fn visits(&self, loads: &[usize]) -> Vec<u32> {
            let at = |a: &Atomic<Entry>| a as *const _ as usize;
            let tops: std::collections::HashMap<usize, usize> =
                self.nodes.iter().enumerate().filter(|(_, p)| !p.is_null()).map(|(i, p)| (at(&node(*p).parent), i)).collect();
            let five = |k: usize| {
                let i = *tops.get(&loads[k])?;
                let d = node(self.nodes[i]);
                (loads[k + 1..k + 5] == [at(&d.left), at(&d.right), at(&d.prev), at(&d.node.next)]).then_some(i as u32)
            };
            (0..loads.len().saturating_sub(4)).filter_map(five).collect()
        }
    }

    impl Drop for Tree {
        fn drop(&mut self) {
            for p in self.nodes.drain(..) {
                if !p.is_null() {
                    free(p);
                }
            }
            // The bin's own drop would free the chain once more.
            self.bin.first.store(null(), O);
            self.bin.root.store(null(), O);
        }
    }
}

/// The source's own routines over plain keys, for the timings.
pub mod timed {
    use super::driver::{guard, COLLECTOR};
    use super::*;

    type Entry = BinEntry<u64, u32>;

    pub struct Bin(TreeBin<u64, u32>);

    impl Bin {
        pub fn new() -> Self {
            Bin(TreeBin {
                root: Atomic::null(),
                first: Atomic::null(),
                waiter: Atomic::null(),
                lock: parking_lot::Mutex::new(()),
                lock_state: AtomicI64::new(0),
            })
        }

        fn root(&self) -> Shared<'static, Entry> {
            self.0.root.load(Ordering::Relaxed, guard())
        }

        #[inline]
        pub fn find(&self, hash: u64, key: u64) -> bool {
            !TreeNode::find_tree_node(self.root(), hash, &key, guard()).is_null()
        }

        #[inline]
        pub fn insert(&self, hash: u64, key: u64, place: u32) {
            let bin: &'static TreeBin<u64, u32> = unsafe { &*(&self.0 as *const _) };
            let value = Shared::boxed(place, &COLLECTOR);
            assert!(bin.find_or_put_tree_val(hash, key, value, guard(), &COLLECTOR).is_null());
        }

        /// Removes a pair that is there, from a tree on which `remove_tree_node` does not return early.
        #[inline]
        pub fn remove(&self, hash: u64, key: u64) {
            let bin: &'static TreeBin<u64, u32> = unsafe { &*(&self.0 as *const _) };
            let p = TreeNode::find_tree_node(self.root(), hash, &key, guard());
            unsafe {
                assert!(!bin.remove_tree_node(p, true, guard(), &COLLECTOR));
                seize::reclaim_all();
            }
        }

        pub fn check(&self) {
            TreeNode::check_invariants(self.root(), guard());
        }

        /// The two halves of this bin by a bit of the hash, as the source's map makes them for the next table: a new node for each along
        /// the chain, which its half's chain ends with, and a tree of each chain. The values are this bin's own, so no half is dropped.
        #[inline(never)]
        pub fn halves(&self, bit: u64) -> [std::mem::ManuallyDrop<Bin>; 2] {
            const O: Ordering = Ordering::Relaxed;
            let mut ends = [(Shared::null(), Shared::null()); 2];
            let mut at = self.0.first.load(O, guard());
            while !at.is_null() {
                let old = unsafe { TreeNode::get_tree_node(at) };
                let (first, last) = &mut ends[(old.node.hash & bit != 0) as usize];
                let new = TreeNode::new(old.node.hash, old.node.key, old.node.value.clone(), Atomic::null(), Atomic::null());
                new.prev.store(*last, O);
                let new = Shared::boxed(BinEntry::TreeNode(new), &COLLECTOR);
                if last.is_null() {
                    *first = new;
                } else {
                    unsafe { TreeNode::get_tree_node(*last) }.node.next.store(new, O);
                }
                *last = new;
                at = old.node.next.load(O, guard());
            }
            ends.map(|(first, _)| std::mem::ManuallyDrop::new(Bin(unsafe { TreeBin::new(first, guard()) })))
        }
    }
}
