/// Appended to the source's iter/traverser.rs: a walk whose state can be read.
pub mod driver {
    use super::*;
    use crate::node::driver::Name;
    use crate::oz::NULL;
    use crate::raw::driver::Tables;

    pub struct Walk(NodeIter<'static, Name, u32>);

    impl Walk {
        pub fn new(tables: &Tables, t: usize) -> Self {
            Walk(tables.walk(t))
        }

        /// The slot given, or null at the end.
        pub fn next(&mut self) -> u32 {
            self.0.next().map_or(NULL, |n| n.key.slot)
        }

        /// Depth, the index at each level (0 past the depth), and the slot last given.
        pub fn state(&self) -> [u32; 10] {
            let mut levels = vec![self.0.index as u32];
            let mut frame = &self.0.stack;
            while let Some(f) = frame {
                levels.push(f.index as u32);
                frame = &f.next;
            }
            levels.reverse();
            let mut out = [0; 10];
            out[0] = levels.len() as u32 - 1;
            out[1..1 + levels.len()].copy_from_slice(&levels);
            out[9] = self.0.prev.map_or(NULL, |n| n.key.slot);
            out
        }
    }
}
