/// Appended to the source's raw/mod.rs: its tables, built over the words of a frozen set.
pub mod driver {
    use super::*;
    use crate::iter::traverser::NodeIter;
    use crate::node::driver::{guard, new_node, node, null, set_links, Entry, Name, COLLECTOR, P};
    use crate::oz::{self, Set, NULL};
    use std::collections::HashSet;
    use std::sync::atomic::AtomicI64;

    type T = Shared<'static, Table<Name, u32>>;
    const O: Ordering = Ordering::Relaxed;

    /// The source's tables, with the node of each slot that a list or tree holds, and the addresses of the links by which a search leaves a
    /// node: a list's next, a tree's left and right.
    pub struct Tables {
        tables: Vec<T>,
        nodes: Vec<P>,
        trees: Vec<P>,
        links: HashSet<usize>,
    }

    #[derive(Clone, Copy, PartialEq)]
    enum Kind {
        None,
        List,
        Tree,
    }

    pub(crate) fn slot(p: P) -> u32 {
        if p.is_null() {
            return NULL;
        }
        match **unsafe { p.deref() } {
            BinEntry::Node(ref n) => n.key.slot,
            BinEntry::TreeNode(ref n) => n.node.key.slot,
            _ => unreachable!(),
        }
    }

    impl Tables {
        /// None where the source's types cannot hold the words: a slot of both a list and a tree, a bad word, Moved in the last table.
        pub fn of_words(s: &Set) -> Option<Tables> {
            let n = s.names.len() / 2;
            let mut kinds = vec![Kind::None; n];
            let mut todo: Vec<(u32, Kind)> = Vec::new();
            let last = s.begin(s.lengths.len() - 1);
            for (i, w) in s.bins.iter().enumerate() {
                match *w {
                    0 => {}
                    1 if i < last => {}
                    2..=4097 if ((*w - 2) as usize) < n => todo.push((*w - 2, Kind::List)),
                    4098..=8193 if ((*w - 4098) as usize) < s.heads.len() / 3 => {
                        let h = 3 * (*w - 4098) as usize;
                        todo.push((s.heads[h], Kind::Tree));
                        todo.push((s.heads[h + 1], Kind::Tree));
                    }
                    _ => return None,
                }
            }
            while let Some((x, kind)) = todo.pop() {
                if x == NULL {
                    continue;
                }
                let i = x as usize;
                if i >= n {
                    return None;
                }
                if kinds[i] == kind {
                    continue;
                }
                if kinds[i] != Kind::None {
                    return None;
                }
                kinds[i] = kind;
                let c = &s.cells[7 * i..7 * i + 7];
                let links: &[usize] = if kind == Kind::List { &[oz::NEXT] } else { &[oz::PARENT, oz::LEFT, oz::RIGHT, oz::PREV, oz::NEXT] };
                todo.extend(links.iter().map(|&f| (c[f], kind)));
            }
            let nodes: Vec<P> = (0..n)
                .map(|i| {
                    let (hash, key, place) = (s.names[2 * i], s.names[2 * i + 1], s.cells[7 * i]);
                    match kinds[i] {
                        Kind::None => null(),
                        Kind::Tree => new_node(hash, key, i as u32, place),
                        Kind::List => {
                            let value = Atomic::from(Shared::boxed(place, &COLLECTOR));
                            Shared::boxed(BinEntry::Node(Node::new(hash, Name { key, slot: i as u32 }, value)), &COLLECTOR)
                        }
                    }
                })
                .collect();
            let at = |l: u32| if l == NULL { null() } else { nodes[l as usize] };
            let mut links = HashSet::new();
            let mut leaves_by = |link: &Atomic<Entry>| links.insert(link as *const _ as usize);
            for i in 0..n {
                let c = &s.cells[7 * i..7 * i + 7];
                match kinds[i] {
                    Kind::None => {}
                    Kind::List => {
                        let Some(d) = unsafe { nodes[i].deref() }.as_node() else { unreachable!() };
                        d.next.store(at(c[oz::NEXT]), O);
                        leaves_by(&d.next);
                    }
                    Kind::Tree => {
                        let d = node(nodes[i]);
                        set_links(d, c, at);
                        leaves_by(&d.left);
                        leaves_by(&d.right);
                    }
                }
            }
            let trees: Vec<P> = (0..s.heads.len() / 3)
                .map(|h| {
                    let named = s.bins.contains(&(4098 + h as u32));
                    let (root, first) = if named { (at(s.heads[3 * h]), at(s.heads[3 * h + 1])) } else { (null(), null()) };
                    Shared::boxed(
                        BinEntry::Tree(TreeBin {
                            root: Atomic::from(root),
                            first: Atomic::from(first),
                            waiter: Atomic::null(),
                            lock: parking_lot::Mutex::new(()),
                            lock_state: AtomicI64::new(0),
                        }),
                        &COLLECTOR,
                    )
                })
                .collect();
            let tables: Vec<T> = s.lengths.iter().map(|l| Shared::boxed(Table::new(*l as usize, &COLLECTOR), &COLLECTOR)).collect();
            for (k, t) in tables.iter().enumerate() {
                let table: &'static Table<Name, u32> = unsafe { t.deref() };
                for i in 0..table.len() {
                    let bin = match s.bins[s.begin(k) + i] {
                        0 => null(),
                        1 => table.get_moved(tables[k + 1], guard()),
                        w @ 2..=4097 => at(w - 2),
                        w => trees[(w - 4098) as usize],
                    };
                    table.store_bin(i, bin);
                }
            }
            Some(Tables { tables, nodes, trees, links })
        }

        /// The source's lookup in table t.
        pub fn lookup(&self, t: usize, hash: u64, key: u64) -> u32 {
            let table: &'static Table<Name, u32> = unsafe { self.tables[t].deref() };
            let bin = table.bin(table.bini(hash), guard());
            if bin.is_null() {
                return NULL;
            }
            slot(table.find(unsafe { bin.deref() }, hash, &Name { key, slot: 0 }, guard()))
        }

        /// The same with its looks, where it may load so many links.
        #[cfg(feature = "trace")]
        pub fn search(&self, t: usize, hash: u64, key: u64, limit: usize) -> (Option<u32>, usize) {
            crate::node::driver::searched(limit, |at| self.links.contains(at), || self.lookup(t, hash, key))
        }

        pub(crate) fn walk(&self, t: usize) -> NodeIter<'static, Name, u32> {
            NodeIter::new(self.tables[t], guard())
        }
    }

    impl Drop for Tables {
        fn drop(&mut self) {
            unsafe {
                for t in self.tables.drain(..) {
                    let table: &'static Table<Name, u32> = t.deref();
                    for i in 0..table.len() {
                        table.store_bin(i, null());
                    }
                    drop(t.into_box());
                }
                for p in self.trees.drain(..) {
                    p.deref().as_tree_bin().unwrap().first.store(null(), O);
                    drop(p.into_box());
                }
                for p in self.nodes.drain(..).filter(|p| !p.is_null()) {
                    let value = match **p.deref() {
                        BinEntry::Node(ref n) => &n.value,
                        BinEntry::TreeNode(ref n) => &n.node.value,
                        _ => unreachable!(),
                    };
                    drop(value.clone().into_box());
                    drop(p.into_box());
                }
            }
        }
    }
}
